"""What `tapa plan` prints (docs/COMMAND.md, "The lines of a plan"), read into names and numbers; the call that prints it, and the program that is called."""
from __future__ import annotations

import os
import re
import stat
from dataclasses import dataclass, field
from typing import Dict, List, Optional

from . import files
from .device import Amounts, SlotPlace
from .faults import Fault, Told
from .program import Outcome, Program, find

# Where the program reads a device file that it is given on standard input.
GIVEN = "/dev/stdin"


class Refused(Told):
    """The program answered a call of `plan` with another status than 0; its lines on standard error are the text."""

    def __init__(self, outcome: Outcome, source: str, top: str) -> None:
        super().__init__(outcome.err.decode("utf-8", "replace").rstrip("\n"), ["plan", source, top], outcome.status)


class PlanFault(ValueError):
    """A text that is no plan; its words say in which line and why."""


@dataclass
class PlannedStream:
    """A stream's line: its bits with the mark of an end of transaction, registers at borders, registers of the balance, and the certificate's flow."""

    name: str
    width: int
    latency: int
    balance: int
    flow: int


@dataclass
class Plan:
    """A plan: what each slot's tasks use, the slot of each instance, and the streams in the program's order."""

    slots: Dict[SlotPlace, Amounts] = field(default_factory=dict)
    tasks: Dict[str, SlotPlace] = field(default_factory=dict)
    streams: List[PlannedStream] = field(default_factory=list)
    cost: int = 0
    registers: int = 0
    dual: int = 0

    def used(self) -> Amounts:
        """What all instances use together, of each resource."""
        return [sum(column) for column in zip(*self.slots.values())]

    def crossing(self) -> List[PlannedStream]:
        """The streams that have registers, at borders or by the balance."""
        return [stream for stream in self.streams if stream.latency or stream.balance]


def ask(program: Program, source: str, top: str, device: str, mode: str = "fit") -> Plan:
    """The program's plan of a source on a device, whose file's text is given. Refused where it answers none."""
    outcome = program.call(["plan", source, top, GIVEN, "--plan", mode], input=device.encode())
    if outcome.status != 0:
        raise Refused(outcome, source, top)
    return parse(outcome.out.decode())


def program_for(source: str, top: str, device: Optional[str]) -> Program:
    """The program. Refused with its own words where it refuses a file; Fault where a file is a pipe, which can be read but once, and is needed for
    several calls, or where there is no program."""
    for path in [source] + ([device] if device else []):
        if os.path.exists(path) and not stat.S_ISREG(os.stat(path).st_mode):
            raise Fault(f"{path} is no regular file, and it is read several times")
    called = find()
    answer = called.call(["plan", source, top, device]) if device else None
    if answer and answer.status not in (0, 4):
        raise Refused(answer, source, top)
    return called


_NUMBER = r"([0-9]{1,20})"
_SLOT = re.compile(rf"slot {_NUMBER} {_NUMBER}: {' '.join([_NUMBER] * 5)}")
_TASK = re.compile(rf"task (\w+\$[0-9]+(?:\$\w+\$[0-9]+)*): {_NUMBER} {_NUMBER}")
_STREAM = re.compile(rf"stream (\S+): width {_NUMBER} latency {_NUMBER} balance {_NUMBER} flow {_NUMBER}")
_SUM = re.compile(rf"(cost|registers|dual) {_NUMBER}")


def parse(out: str) -> Plan:
    """The plan of a text that `tapa plan` printed. PlanFault where a line is none of a plan, where a task has no slot of it, or where the text has no slot or no cost."""
    plan = Plan()
    has_cost = False
    for number, line in enumerate(out.splitlines(), 1):
        if not _take(plan, line):
            raise PlanFault(f"line {number} is no line of a plan: {line[:60]}")
        has_cost = has_cost or line.startswith("cost ")
    if not plan.slots or not has_cost:
        raise PlanFault("the text has not all lines of a plan")
    for label, (row, col) in plan.tasks.items():
        if (row, col) not in plan.slots:
            raise PlanFault(f"the task {label} is in slot {row} {col}, which has no line")
    return plan


def read(path: str) -> Plan:
    """The plan of a file. OSError where it cannot be read, Fault where it has none."""
    try:
        return parse(files.text(path))
    except PlanFault as why:
        raise Fault(f"{path}: {why}") from None


def _take(plan: Plan, line: str) -> bool:
    """Adds a line to a plan; False where it is none of a plan."""
    slot, task, stream, total = (form.fullmatch(line) for form in (_SLOT, _TASK, _STREAM, _SUM))
    if slot:
        row, col, *uses = map(int, slot.groups())
        plan.slots[row, col] = uses
    elif task:
        plan.tasks[task[1]] = (int(task[2]), int(task[3]))
    elif stream:
        plan.streams.append(PlannedStream(stream[1], *map(int, stream.groups()[1:])))
    elif total:
        setattr(plan, total[1], int(total[2]))
    return bool(slot or task or stream or total)
