"""A design as scripts and tests have it: it is checked, run, built, simulated and planned by calls of the program `tapa`, and called as a function."""
import importlib
import json
import os
import tempfile
from dataclasses import dataclass
from pathlib import Path
from typing import Any, Dict, List, Mapping, Optional, Sequence, Tuple, Union

from ..language import source
from ..language.kinds import Kind
from . import data, plan as plans, program, report
from .cells import Cells, give, taken, whole
from .program import Outcome, Program
from .report import Shape
from .results import Call, Failure, NotDone, Refused, Result, Stopped, warn_of_past_ends

# A device: the path of its file, or what stands in it.
Device = Union[str, "os.PathLike[str]", Mapping[str, Any]]
GIVEN = "/dev/stdin"
# The greatest numbers of options, and the ways to place tasks (docs/COMMAND.md).
MOST = {"--workers": 64, "--steps": 1_000_000_000_000, "--cycles": 1_000_000_000_000}
MODES = ("fit", "exact", "split")
# The statuses of the program (docs/COMMAND.md, "Statuses and messages").
DONE, IN_SOURCE, IN_DATA, NO_ROOM, PAST_LIMIT, STOPPED = 0, 1, 3, 4, 7, 8


def refused_or_failed(outcome: Outcome, call: Call) -> Failure:
    return Refused(outcome, call) if outcome.status in (IN_SOURCE, IN_DATA, NO_ROOM) else Failure(outcome, call)


@dataclass(frozen=True)
class Interface:
    """What the top task takes and shows: its parameters in order, and the kinds of all streams and memories by name."""

    src: str
    top: str
    parameters: List[source.Parameter]
    streams: Dict[str, Kind]
    memories: Dict[str, Kind]

    def data(self, scalars: Mapping[str, Any], memories: Mapping[str, Cells], ready: Mapping[str, Sequence[int]]) -> bytes:
        """The text of a data file with these inputs. TypeError names the argument that is none."""
        for name, given in (("scalars", scalars), ("memories", memories), ("ready", ready)):
            if not isinstance(given, Mapping):
                raise TypeError(f"{name} is of type {type(given).__name__}, and has to be a dictionary from the names of parameters")
        cells = {name: taken(given, f"memories[{name!r}]") for name, given in memories.items()}
        numbers = {name: whole(number, f"scalars[{name!r}]") for name, number in scalars.items()}
        bits = {name: taken(given, f"ready[{name!r}]") for name, given in ready.items()}
        return data.text_of(data.Data(numbers, cells, bits)).encode()

    def result(self, outcome: Outcome, given: bytes, program: Program, circuit: str = "") -> Result:
        """The result of a call of `run` with these data, or of `cosim` with a circuit too, or its exception."""
        call, is_run = Call(self.src, self.top, given, program=program, circuit=circuit), not circuit
        if outcome.status not in (DONE, PAST_LIMIT, STOPPED):
            raise refused_or_failed(outcome, call)
        raw = report.parse(outcome.out.decode(), outcome.err.decode("utf-8", "replace"))
        shown = report.with_signs(raw, shapes(self.streams), shapes(self.memories))
        result = Result(shown.streams, shown.memories, shown.count if is_run else None, None if is_run else shown.count, program.proved, self.memories, call)
        if outcome.status == STOPPED:
            raise Stopped(outcome, result, shown.waiting, call)
        if outcome.status == PAST_LIMIT:
            raise NotDone(outcome, result if shown.end else None, call)
        if is_run:
            warn_of_past_ends(call)
        return result


def shapes(kinds: Mapping[str, Kind]) -> Dict[str, Shape]:
    return {name: (kind.bits, kind.signed) for name, kind in kinds.items()}


def no_options(number: Optional[int], word: str) -> List[str]:
    """The words of an option, none where it is not given. ValueError names the argument that is not in its range."""
    most = MOST[word]
    if number is not None and (type(number) is not int or not 1 <= number <= most):
        raise ValueError(f"{word[2:]} is {number!r}, and has to be a whole number from 1 to {most:,}")
    return [] if number is None else [f"{word}={number}"]


def mode(plan: str) -> str:
    """How tasks are placed. ValueError if it is no such way."""
    if plan not in MODES:
        raise ValueError(f"plan is {plan!r}, and has to be {', '.join(map(repr, MODES[:-1]))} or {MODES[-1]!r}")
    return plan


@dataclass(frozen=True)
class Circuit:
    """A circuit that was built: `text` is its Verilog, whose top module is `t_TOP`."""

    text: str
    interface: Interface
    program: Program

    def cosim(self, scalars: Mapping[str, Any] = {}, memories: Mapping[str, Cells] = {}, ready: Mapping[str, Sequence[int]] = {}, cycles: Optional[int] = None) -> Result:
        """Simulates the circuit, for at most so many cycles. `ready` says for a memory whether it is ready in cycle 1, 2 and so on; behind the list it is
        ready. Raises Refused where the data are, NotDone past the cycles."""
        given = self.interface.data(scalars, memories, ready)
        with tempfile.TemporaryDirectory(prefix="tapa-") as folder:
            path = os.path.join(folder, "circuit.v")
            self.write(path)
            outcome = self.program.call(["cosim", path, GIVEN, *no_options(cycles, "--cycles")], given)
        return self.interface.result(outcome, given, self.program, self.text)

    def write(self, path: str) -> None:
        """Writes the Verilog text. Raises OSError."""
        Path(path).write_text(self.text, encoding="utf-8")


class Design:
    """A source file and its top task. `program` is the program that is asked, and says whether it is the proved one."""

    def __init__(self, src: str, top: str, tapa: Optional[Program] = None) -> None:
        """Raises OSError where the file cannot be read, and program.NoProgram. What the source is is looked at by `check`, `run` and the others."""
        self.src, self.top = os.fspath(src), top
        self.program = tapa or program.find()
        self._read()

    def __repr__(self) -> str:
        return f"Design({self.src!r}, {self.top!r})"

    def _repr_html_(self) -> str:
        """What a notebook shows: the network, and a table of its streams."""
        return str(importlib.import_module("vechaqir.show.notebook").design_html(self.src, self.top))

    def _repr_svg_(self) -> str:
        """The network as a picture."""
        return str(importlib.import_module("vechaqir.show.notebook").network_svg(self.src, self.top))

    def _read(self) -> Interface:
        """What the source says of its top task; nothing of a top that is not there, which the program refuses."""
        read = source.read(self.src)
        if self.top not in read.tasks:
            return Interface(self.src, self.top, [], {}, {})
        net = source.network(read, self.top)
        parameters = read.tasks[self.top].parameters
        return Interface(self.src, self.top, parameters, {it.name: it.kind for it in net.streams}, {it.name: it.kind for it in net.memories})

    def check(self) -> None:
        """Raises Refused, with code, place and explanation, where the source breaks a rule."""
        outcome = self.program.call(["run", self.src, self.top, "--steps=1"])
        if outcome.status not in (DONE, IN_DATA, PAST_LIMIT, STOPPED):
            raise refused_or_failed(outcome, Call(self.src, self.top))

    def run(self, scalars: Mapping[str, Any] = {}, memories: Mapping[str, Cells] = {}, workers: Optional[int] = None, steps: Optional[int] = None) -> Result:
        """Runs the design on these values and cells, by so many workers, for at most so many ticks. Raises Refused where the source or the data are,
        Stopped at a deadlock or a wrong token, NotDone past the ticks."""
        interface = self._read()
        words = ["run", self.src, self.top, GIVEN, *no_options(workers, "--workers"), *no_options(steps, "--steps")]
        given = interface.data(scalars, memories, {})
        return interface.result(self.program.call(words, given), given, self.program)

    def build(self, device: Optional[Device] = None, plan: str = "fit", balance: bool = True) -> Circuit:
        """The circuit: for a device with the registers of its floorplan, which is found by `fit`, `exact` or `split`, and with their balance. Raises
        Refused where the source or the device is, or where the device has no room."""
        words, path, given = ["build", self.src, self.top], None, b""
        if device is not None:
            path, given = device_words(device)
            words += ["--device", path, "--plan", mode(plan), *([] if balance else ["--no-balance"])]
        outcome = self.program.call(words, given)
        if outcome.status != DONE:
            raise refused_or_failed(outcome, Call(self.src, self.top, given, path))
        return Circuit(outcome.out.decode(), self._read(), self.program)

    def cosim(
        self,
        scalars: Mapping[str, Any] = {},
        memories: Mapping[str, Cells] = {},
        ready: Mapping[str, Sequence[int]] = {},
        cycles: Optional[int] = None,
        device: Optional[Device] = None,
        plan: str = "fit",
    ) -> Result:
        """Builds the circuit and simulates it (`build`, `Circuit.cosim`)."""
        return self.build(device, plan).cosim(scalars, memories, ready, cycles)

    def plan(self, device: Device, plan: str = "fit") -> plans.Plan:
        """Where each task stands on a device, and what its streams take, by `fit`, `exact` or `split`. Raises Refused as `build` does."""
        path, given = device_words(device)
        outcome = self.program.call(["plan", self.src, self.top, path, "--plan", mode(plan)], given)
        if outcome.status != DONE:
            raise refused_or_failed(outcome, Call(self.src, self.top, given, path))
        return plans.parse(outcome.out.decode())

    def kernel(self, *arguments: Any, circuit: Optional[Circuit] = None, workers: Optional[int] = None) -> Result:
        """Calls the top task as a host does: a memory or a scalar for each of its parameters, in their order. Memories are lists or arrays, as long as they
        have cells, and those that are not `const` are changed in place. With a circuit that is simulated, in place of the run. Raises TypeError where the
        arguments do not fit the parameters, and what `run` and `cosim` raise; then nothing is changed."""
        parameters = self._read().parameters
        if len(arguments) != len(parameters):
            raise TypeError(f"{self.top} takes {len(parameters)} arguments ({', '.join(it.name for it in parameters)}), and gets {len(arguments)}")
        memories = {it.name: given for it, given in zip(parameters, arguments) if it.direction == "mmap"}
        scalars = {it.name: given for it, given in zip(parameters, arguments) if it.direction == "scalar"}
        result = circuit.cosim(scalars, memories) if circuit else self.run(scalars, memories, workers)
        for parameter in parameters:
            if parameter.direction == "mmap" and not parameter.is_const:
                give(memories[parameter.name], result.memories[parameter.name])
        return result


def device_words(device: Device) -> Tuple[str, bytes]:
    """The path that a device is read from, and what is given on standard input. TypeError if it is neither a path nor what a file can hold."""
    if isinstance(device, (str, os.PathLike)):
        return os.fspath(device), b""
    if not isinstance(device, Mapping):
        raise TypeError(f"device is of type {type(device).__name__}, and has to be the path of a device file, or a dictionary with what is in it")
    try:
        return GIVEN, json.dumps(device).encode()
    except (TypeError, ValueError) as why:
        raise TypeError(f"device: {why}") from None
