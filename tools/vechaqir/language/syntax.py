"""What a TAPA source declares: tasks with their parameters, streams and invokes, and constants."""
from dataclasses import dataclass, field
from typing import Dict, List, Optional, Tuple

from .kinds import Kind
from .lexemes import Lexeme, Lines, Place


@dataclass
class Parameter:
    """A task's parameter. Its direction is `istream`, `ostream`, `mmap`, `scalar`, or another word behind `tapa::` that the language has not, as `istreams`."""

    name: str
    direction: str
    kind: Kind
    is_const: bool
    place: Place
    is_reference: bool = False


@dataclass
class Stream:
    """A stream or, with a count, an array of streams. Depth and count are None where none is written, or where they are no constants."""

    name: str
    kind: Kind
    depth: Optional[int]
    count: Optional[int]
    place: Place
    is_array: bool = False


@dataclass
class Argument:
    """An argument of an invoke, with its words as they are written, joined without blanks between them but where two names meet."""

    text: str
    place: Place


@dataclass
class Invoke:
    """An invoke in a task's chain; `count` is how many instances it makes, and `mode` the word behind `tapa::`, or the empty one."""

    task: str
    detached: bool
    count: int
    arguments: List[Argument]
    place: Place
    mode: str = ""


@dataclass
class Task:
    """A task. `body` has the offsets of its braces: of the opening one, and behind the closing one."""

    name: str
    parameters: List[Parameter]
    streams: List[Stream]
    invokes: List[Invoke]
    is_upper: bool
    place: Place
    body: Tuple[int, int]

    def parameter(self, name: str) -> Optional[Parameter]:
        return next((it for it in self.parameters if it.name == name), None)


@dataclass
class Source:
    """What is read of a source. `values` has each constant's kind beside its number; `counts` those that are one decimal literal, which alone may be counts of arrays."""

    path: Optional[str]
    text: bytes
    lexemes: List[Lexeme]
    lines: Lines
    tasks: Dict[str, Task] = field(default_factory=dict)
    values: Dict[str, Tuple[int, Kind]] = field(default_factory=dict)
    counts: Dict[str, int] = field(default_factory=dict)

    @property
    def constants(self) -> Dict[str, int]:
        return {name: number for name, (number, _) in self.values.items()}

    def place(self, offset: int) -> Place:
        return self.lines.place(offset)

    def index_at(self, offset: int) -> int:
        """The index of the first lexeme that ends behind an offset; the number of lexemes where there is none."""
        low, high = 0, len(self.lexemes)
        while low < high:
            middle = (low + high) // 2
            low, high = (middle + 1, high) if self.lexemes[middle].end <= offset else (low, middle)
        return low

    def task_at(self, offset: int) -> Optional[Task]:
        """The task whose body has this offset."""
        return next((task for task in self.tasks.values() if task.body[0] <= offset < task.body[1]), None)
