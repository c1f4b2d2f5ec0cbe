"""A run that is made once more beside the program, for what the program does not say: where each task is, and which accesses go past an end (`machine/untimed.py`)."""
import re
from typing import Dict, Mapping, NamedTuple, Optional, Sequence

from ..host import data
from ..language.matching import View
from ..language.network import Network
from ..language.source import Source
from ..machine.untimed import ENDED, WRITES, Outcome, Running, Untimed

# Seconds of CPU time of one run here, and of all runs of one explanation.
SECONDS, ALL = 0.8, 1.0


class Given(NamedTuple):
    """What a run has: its source and network, its values, and the words that name them in a command."""

    source: Source
    network: Network
    scalars: Mapping[str, int]
    memories: Mapping[str, Sequence[int]]
    words: str
    data: str


def given(source: Optional[Source], network: Optional[Network], text: Optional[bytes], words: Sequence[str]) -> Optional[Given]:
    """What a run has, if all of it can be read; `words` are the source's path, the top task and the path of the data, if there are data."""
    if source is None or network is None or text is None:
        return None
    try:
        found = data.parse(text.decode())
        return Given(source, network, found.scalars, found.memories, " ".join(words), words[2] if len(words) > 2 and words[2] != "DATA" else "")
    except ValueError:
        return None


def replay(run: Given, most: int, seconds: float = SECONDS, depths: Optional[Mapping[str, int]] = None) -> Optional[Outcome]:
    """The run for at most so many ticks and seconds of CPU time; None if it cannot be made here."""
    try:
        return Untimed(run.source, run.network, run.scalars, run.memories, depths).run(most, seconds)
    except (ValueError, LookupError, TypeError, MemoryError, RecursionError, SyntaxError):
        return None


def has_cells(source: Source) -> bool:
    """Whether some task may go past an end: it has an index."""
    return any(it.text == "[" for it in source.lexemes)


def instances(found: Outcome) -> Dict[str, Running]:
    return {it.instance.label: it for it in found.running}


def waits(it: Running) -> str:
    """What an instance that has not ended does, in words."""
    state, machine = it.state, it.machine
    if it.status == ENDED:
        return f"{it.instance.label} has ended"
    if it.status == 0:
        return f"{it.instance.label} is at line {it.line}"
    stream = it.instance.bindings[machine.streams[state.subject or 0]]
    what = "to write" if it.status == WRITES else "for a token or the end of a transaction of" if state.act == "eot" else "to read"
    return f"{it.instance.label} waits in line {it.line} {what} `{stream}`"


def writes_end(view: View, task: str, stream: str) -> bool:
    """Whether a task calls `close()` of a stream parameter."""
    found = view.source.tasks.get(task)
    if found is None:
        return False
    return re.search(rb"\b" + stream.encode() + rb"\s*\.\s*close\b", view.source.text[found.body[0]:found.body[1]]) is not None
