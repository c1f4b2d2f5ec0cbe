"""What a call of the program gives a host: a result with signed values, or an exception with code, place and explanation."""
import importlib
import os
import re
import warnings
from dataclasses import dataclass, field
from typing import Any, Dict, List, Optional, Tuple

from ..language.kinds import Kind
from ..language.lexemes import Place
from .cells import array
from .program import Outcome, Program
from .report import Report, Token, Waiting, text_of

PLACED = re.compile(r"tapa: (?P<file>.*):(?P<line>\d+):(?P<column>\d+): (?P<code>[A-Z]\d+) (?P<text>.*)")
KEYED = re.compile(r"tapa: (?P<file>.*): (?P<code>[A-Z]\d)(?: (?P<key>.*))?")


@dataclass(frozen=True)
class Call:
    """What the program was asked: a source and its top task, the bytes of the data or the device that the module passed on, with their names in messages, the program, and the text
    of a circuit that was simulated."""

    source: str
    top: str
    given: bytes = b""
    device: Optional[str] = None
    words: Tuple[str, ...] = ()
    program: Optional[Program] = None
    circuit: str = ""


@dataclass
class Result:
    """What a run, or a simulation of a circuit, leaves.

    `streams` has the tokens that each stream carried, as numbers of its kind and `EOT`; of an array `q` the streams are `q_0`, `q_1` and so on, those
    inside an upper-level task `U$0$q`. `memories` has the last cells of each memory, as numbers of its kind. `ticks` is the number of ticks that all joined
    tasks made, None of a simulation; `cycles` that of clock cycles, None of a run. `proved` says that the program that was asked is the proved one.
    """

    streams: Dict[str, List[Token]]
    memories: Dict[str, List[int]]
    ticks: Optional[int] = None
    cycles: Optional[int] = None
    proved: bool = False
    kinds: Dict[str, Kind] = field(default_factory=dict, repr=False)
    call: Optional[Call] = field(default=None, repr=False, compare=False)

    def _repr_html_(self) -> str:
        """What a notebook shows: the network, what each task does in each cycle, and a table of streams and memories."""
        return str(importlib.import_module("vechaqir.show.notebook").result_html(self))

    def _repr_svg_(self) -> str:
        """What each task does in each cycle of the circuit, as a picture."""
        return str(importlib.import_module("vechaqir.show.notebook").result_svg(self))

    def array(self, memory: str) -> Any:
        """The last cells of a memory as an array of numpy, with the type of its kind. KeyError, and ImportError where numpy is not there."""
        return array(self.memories[memory], self.kinds[memory])

    def __str__(self) -> str:
        end = "done" if self.ticks is None else "ticks"
        count = self.cycles if self.ticks is None else self.ticks
        return text_of(Report(self.streams, self.memories)) + (f"{end} {count}" if count is not None else "")


class Failure(Exception):
    """The program answered with another status than 0. `status` is the exit status, `lines` the lines of standard error. Its text has each line with its explanation."""

    def __init__(self, outcome: Outcome, call: Optional[Call] = None) -> None:
        self.status = outcome.status
        self.lines = outcome.err.decode("utf-8", "replace").splitlines()
        self.call = call
        super().__init__("\n".join(self.lines) or f"status {self.status}")

    def __str__(self) -> str:
        return self.explanation.rstrip("\n") or f"status {self.status}"

    @property
    def explanation(self) -> str:
        """The messages with the lines that they speak of, what is wrong, why, and what to write instead, as `./tapa` shows them on a terminal."""
        return "".join(f"{line}\n" for line in importlib.import_module("vechaqir.explain.module").explained(self.lines, self.call))


class PastEnd(UserWarning):
    """A run has read or written past the end of a memory or an array, which gives 0 or is dropped. It is looked for if the variable TAPA_EXPLAIN is 1."""


def warn_of_past_ends(call: Call) -> None:
    """Warns of accesses past an end of a run that is done, if explanations are asked for."""
    if os.environ.get("TAPA_EXPLAIN") == "1":
        lines = importlib.import_module("vechaqir.explain.module").done(call)
        if lines:
            warnings.warn("\n".join(lines), PastEnd, stacklevel=4)


class Refused(Failure):
    """A source, a Verilog text, a data file or a device file is refused, or a device has no room.

    `code` is the rule that is broken, as `C3` or `J2`, and empty where the message has none. `file` is the file that is told, `place` the line and column
    in it, and `key` the key of a data or device file or the name in a Verilog text; each None where the message tells none.
    """

    def __init__(self, outcome: Outcome, call: Optional[Call] = None) -> None:
        super().__init__(outcome, call)
        first = self.lines[0] if self.lines else ""
        placed, keyed = PLACED.fullmatch(first), KEYED.fullmatch(first)
        found = placed or keyed
        self.code = found["code"] if found else ""
        self.file = found["file"] if found else None
        self.place = Place(int(placed["line"]), int(placed["column"])) if placed else None
        self.key = keyed["key"] if keyed and not placed else None


class Stopped(Failure):
    """A deadlock at the declared depths, or a task that met a wrong token. `result` has what the streams carried until then, `waiting` who waits for what."""

    def __init__(self, outcome: Outcome, result: Result, waiting: List[Waiting], call: Optional[Call] = None) -> None:
        super().__init__(outcome, call)
        self.result, self.waiting = result, waiting


class NotDone(Failure):
    """The limit of ticks or of cycles was reached. `result` has what a simulation showed until then; of a run there is none."""

    def __init__(self, outcome: Outcome, result: Optional[Result], call: Optional[Call] = None) -> None:
        super().__init__(outcome, call)
        self.result = result


# Tracebacks name the exceptions as callers import them.
for _it in (Failure, NotDone, PastEnd, Refused, Stopped):
    _it.__module__ = "vechaqir"
