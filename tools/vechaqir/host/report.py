"""The report that `run` and `cosim` print (docs/COMMAND.md, "The report"), as values."""
import enum
import re
from dataclasses import dataclass, field
from typing import Dict, Iterable, List, Mapping, NamedTuple, Tuple, Union


class Eot(enum.Enum):
    """The end of a transaction, which `close()` writes."""

    EOT = "eot"

    def __repr__(self) -> str:
        return "EOT"

    def __str__(self) -> str:
        return "eot"


EOT = Eot.EOT
Token = Union[int, Eot]
# Bits and sign of a kind of values.
Shape = Tuple[int, bool]

LINE = re.compile(r"(?:(stream) ([\w$]+):((?: -?[0-9]{1,20}| eot)*)|(memory) ([\w$]+):((?: -?[0-9]{1,20})*))")
END = re.compile(r"(done|stopped|running) ([0-9]{1,20})")
WAITS = re.compile(r"tapa: (\S+) (waits to read|waits to write|bad token on) (\S+)")


class Waiting(NamedTuple):
    """An instance that has not ended: it `waits to read` or `waits to write` a stream, or met a `bad token on` it."""

    label: str
    what: str
    stream: str

    def __str__(self) -> str:
        return f"{self.label} {self.what} {self.stream}"


@dataclass
class Report:
    """What a run or a simulation showed.

    `streams` has the tokens that each stream carried, `memories` the last cells of each memory of the top task, both in the order of the report. `end` is
    `done`, `stopped` (a run's deadlock or bad token), `running` (a simulation past its cycles), or `` where the report broke off. `count` is the number of
    ticks of a run, of cycles of a simulation. `messages` has the lines of standard error.
    """

    streams: Dict[str, List[Token]] = field(default_factory=dict)
    memories: Dict[str, List[int]] = field(default_factory=dict)
    end: str = ""
    count: int = 0
    messages: List[str] = field(default_factory=list)

    @property
    def waiting(self) -> List[Waiting]:
        """The instances that have not ended, of a run that stopped."""
        found = (WAITS.fullmatch(line) for line in self.messages)
        return [Waiting(row[1], row[2], row[3]) for row in found if row]


def parse(out: str, err: str = "") -> Report:
    """The report of a call's two outputs. Numbers are those that are printed: unsigned, the bits of a value (`signed` gives them their sign). Lines that are
    none of a report are passed over."""
    report = Report(messages=err.splitlines())
    for line in out.splitlines():
        row, end = LINE.fullmatch(line), END.fullmatch(line)
        if row and row[1]:
            report.streams[row[2]] = [EOT if word == "eot" else int(word) for word in row[3].split()]
        elif row:
            report.memories[row[5]] = [int(word) for word in row[6].split()]
        elif end:
            report.end, report.count = end[1], int(end[2])
    return report


def signed(number: int, bits: int, is_signed: bool) -> int:
    """The value that these bits, given as an unsigned number, have in a kind: -50 of 4294967246 as an `int` of 32 bits."""
    return number - (1 << bits) if is_signed and number >= 1 << (bits - 1) else number


def with_signs(report: Report, streams: Mapping[str, Shape], memories: Mapping[str, Shape]) -> Report:
    """The report with each number as C++ would print it; names that have no shape here keep their numbers."""
    def cells(numbers: Iterable[int], shape: Shape) -> List[int]:
        return [signed(number, *shape) for number in numbers]

    def tokens(carried: Iterable[Token], shape: Shape) -> List[Token]:
        return [it if isinstance(it, Eot) else signed(it, *shape) for it in carried]

    plain = (64, False)
    return Report(
        {name: tokens(carried, streams.get(name, plain)) for name, carried in report.streams.items()},
        {name: cells(held, memories.get(name, plain)) for name, held in report.memories.items()},
        report.end,
        report.count,
        report.messages,
    )


def text_of(report: Report) -> str:
    """The lines of a report, as the program would print them of these numbers."""
    lines = [" ".join([f"stream {name}:", *map(str, carried)]) for name, carried in report.streams.items()]
    lines += [" ".join([f"memory {name}:", *map(str, held)]) for name, held in report.memories.items()]
    lines += [f"{report.end} {report.count}"] if report.end else []
    return "".join(f"{line}\n" for line in lines)
