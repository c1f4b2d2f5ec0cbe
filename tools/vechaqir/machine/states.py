"""The state machine of a leaf task as the compiler makes it: its registers by the variables that they hold, its states by the lines of the source at which they stand.

What is said here of a circuit is checked against it: tests/run.py compares the numbers with the text that `tapa build` writes, and the registers with a waveform, cycle by cycle.
"""
from __future__ import annotations

from dataclasses import dataclass, field
from typing import Dict, List

from ..language.expressions import Entity, NotUnderstood
from ..language.kinds import Kind
from ..language.lexemes import Place
from ..language.source import Source, Task
from ..language.values import UNSIGNED
from .code import State
from .statements import Code

WRITES = ("write", "close")
READS = ("read", "peek", "eot", "open")
MEMORY = ("load", "store")


@dataclass
class Register:
    """A register `x_N`. `role` is `parameter`, `variable`, `counter` (which clears arrays) or `temporary` (which holds what an operation gave, whose text is its name)."""

    number: int
    name: str
    kind: Kind
    role: str
    place: Place


@dataclass
class Array:
    """An array `a_N` of so many cells."""

    number: int
    name: str
    kind: Kind
    cells: int
    place: Place


@dataclass
class Machine:
    """A leaf task's machine. `streams` and `memories` are the names of its parameters in order, so that place and list tell what a state's `subject` is."""

    task: Task
    source: Source
    registers: List[Register] = field(default_factory=list)
    arrays: List[Array] = field(default_factory=list)
    states: List[State] = field(default_factory=list)
    streams: List[str] = field(default_factory=list)
    memories: List[str] = field(default_factory=list)
    scalars: List[str] = field(default_factory=list)

    def place(self, state: State) -> Place:
        """Where a state's act stands in the source."""
        return self.source.place(state.start)

    def text(self, state: State) -> str:
        """What a state's act is written as, on one line."""
        return " ".join(self.source.text[state.start:state.end].decode("utf-8", "replace").split())

    def subject(self, state: State) -> str:
        """The name of the stream, memory, array or variable that a state's act is about; of a test and an end the empty one."""
        if state.subject is None:
            return self.registers[state.register].name if state.register is not None else ""
        if state.act in MEMORY:
            return self.memories[state.subject]
        return self.arrays[state.subject].name if state.act in ("set", "clear") else self.streams[state.subject]

    def says(self, state: State) -> str:
        """A state in words: `read q`, `set i`, `test i < n`, `end`."""
        return f"test {self.text(state)}" if state.act == "test" else f"{state.act} {self.subject(state)}".rstrip()


def machine(source: Source, task: Task) -> Machine:
    """The machine of a leaf task. Raises NotUnderstood where its text is none of the language: `tapa` tells what is wrong with it."""
    at, what = source.lines.offset(task.place), "nests too deep"
    try:
        return _read(source, task)
    except NotUnderstood as why:
        at, what = why.at, "is none of the language"
    except RecursionError:
        pass
    line, column = source.place(at)
    raise NotUnderstood(at, f"{source.path or 'the source'}:{line}:{column}: ", what)


def _read(source: Source, task: Task) -> Machine:
    found = Machine(task, source)
    code = Code(source.lexemes, source.index_at(task.body[0]) + 1, source.values)
    code.scopes.append({})
    for parameter in task.parameters:
        _declare(code, found, parameter.name, parameter.direction, parameter.kind, source.lines.offset(parameter.place))
    _read_body(code, source.index_at(task.body[1] - 1))
    found.states = code.states
    found.registers = [
        Register(number, it.name, it.kind, "parameter" if number < len(found.scalars) else "variable", source.place(it.start))
        for number, it in enumerate(code.variables)
    ]
    found.registers.append(Register(len(found.registers), "", UNSIGNED, "counter", task.place))
    found.arrays = [Array(number, it.name, it.kind, it.cells, source.place(it.start)) for number, it in enumerate(code.arrays)]
    _place_temporaries(found)
    return found


def _declare(code: Code, found: Machine, name: str, direction: str, kind: Kind, at: int) -> None:
    if not kind.bits:
        raise NotUnderstood(at)
    if direction in ("istream", "ostream"):
        code.declare(name, Entity("stream", kind, len(found.streams)))
        found.streams.append(name)
    elif direction == "mmap":
        code.declare(name, Entity("memory", kind, len(found.memories)))
        found.memories.append(name)
    else:
        code.declare(name, Entity("variable", kind, code.new_variable(name, kind, at)))
        found.scalars.append(name)


def _read_body(code: Code, last: int) -> None:
    """All statements up to the brace that closes the task, at which its end stands."""
    while code.position < last:
        code.statement()
    if code.position != last:
        raise NotUnderstood(code.words[last].begin)
    code.act("end", last, last)


def _place_temporaries(found: Machine) -> None:
    """The registers of the operations' values, from the last state to the first."""
    for state in reversed(found.states):
        if state.operation is not None:
            number = len(found.registers)
            state.register = state.operation.number = number
            found.registers.append(Register(number, found.text(state), state.operation.kind, "temporary", found.place(state)))


def machines(source: Source, names: List[str]) -> Dict[str, Machine]:
    """The machines of these leaf tasks, each once, in the order of the list."""
    return {name: machine(source, source.tasks[name]) for name in dict.fromkeys(names)}
