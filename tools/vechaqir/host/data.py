"""Data files (docs/DATA.md): the scalars and memories of a run, and in which cycles a circuit's memories are ready."""
import json
from dataclasses import dataclass, field
from pathlib import Path
from typing import Dict, List, Mapping, Tuple, cast

from ..language.syntax import Task


class BadData(ValueError):
    """A file that is no data file; the text says in a line which file, what and where."""


@dataclass
class Data:
    """The inputs of a run. `memories` has the first cells of each memory, and their number is its size. `ready` has for a memory whether it is ready in
    cycle 1, 2 and so on, 1 or 0; behind the list it is ready. In a file this group is called `waits`; a run does not use it."""

    scalars: Dict[str, int] = field(default_factory=dict)
    memories: Dict[str, List[int]] = field(default_factory=dict)
    ready: Dict[str, List[int]] = field(default_factory=dict)


GROUPS = ("scalars", "memories", "waits")


def parse(text: str, name: str = "{}") -> Data:
    """The data of a file's text; `name` is the file's in messages. What the numbers must be is left to the program. Raises BadData."""
    try:
        found = json.loads(text)
    except json.JSONDecodeError as error:
        raise BadData(f"{name}:{error.lineno}:{error.colno}: no JSON from here on") from None
    except (ValueError, RecursionError):
        raise BadData(f"{name}: a number is too long, or the text nests too deep") from None
    if not isinstance(found, dict):
        raise BadData(f"{name}: no object")
    for group in found:
        if group not in GROUPS or not isinstance(found[group], dict):
            raise BadData(f"{name}: {group} is no group of a data file: {', '.join(GROUPS)}")
    return Data(*(found.get(group, {}) for group in GROUPS))


def read(path: str) -> Data:
    """The data of a file. Raises OSError and BadData."""
    text = Path(path).read_bytes()
    try:
        return parse(text.decode(), path)
    except UnicodeDecodeError as error:
        raise BadData(f"{path}: byte {error.start} is no UTF-8") from None


def text_of(data: Data) -> str:
    """The text of a data file: a line for each scalar and each memory, groups that are empty left out."""
    groups, members = [], cast(Tuple[Mapping[str, object], ...], (data.scalars, data.memories, data.ready))
    for group, values in zip(GROUPS, members):
        if values:
            lines = ",\n".join(f"    {json.dumps(name)}: {json.dumps(value)}" for name, value in values.items())
            groups.append(f'  "{group}": {{\n{lines}\n  }}')
    return "{\n" + ",\n".join(groups) + "\n}\n" if groups else "{}\n"


def write(path: str, data: Data) -> None:
    """Writes a data file. Raises OSError."""
    Path(path).write_text(text_of(data), encoding="utf-8")


def template(task: Task, cells: int = 4) -> Data:
    """Data for a top task, to be filled in: each scalar 0, each memory with this many cells of 0."""
    scalars = {it.name: 0 for it in task.parameters if it.direction == "scalar"}
    return Data(scalars, {it.name: [0] * cells for it in task.parameters if it.direction == "mmap"})
