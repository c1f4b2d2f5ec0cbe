"""What each task of a program uses of a device, by the program's own numbers; and which resource is short where a plan has no room.

The numbers come from plans on one slot that holds everything: the first shows all instances, and a further one for each leaf task of which a device file
does not give it, in which every other task uses nothing, what its instances use.
"""
from __future__ import annotations

from collections import Counter
from dataclasses import dataclass, field
from typing import Dict, List, Mapping, Optional, Sequence, Tuple

from . import device as devices, plan as plans, slot_groups
from .device import RESOURCES, Amounts, Device
from .faults import Fault
from .program import Program

# The most lines of `shortage`.
LINES = 3

NOTHING: Amounts = [0] * len(RESOURCES)


def task_of(label: str) -> str:
    """The leaf task of an instance: `P` of `U$0$P$1`."""
    return label.split("$")[-2]


def added(parts: Sequence[Amounts]) -> Amounts:
    """The sum of amounts, resource by resource."""
    return [sum(column) for column in zip(*parts)] if parts else list(NOTHING)


@dataclass
class Estimate:
    """What an instance of each leaf task uses, the labels of all instances in the program's order, and the bits of each stream."""

    tasks: Dict[str, Amounts] = field(default_factory=dict)
    labels: List[str] = field(default_factory=list)
    widths: Dict[str, int] = field(default_factory=dict)

    def of(self, label: str) -> Amounts:
        """What an instance uses."""
        return self.tasks[task_of(label)]

    def counts(self) -> Dict[str, int]:
        """How many instances each leaf task has."""
        return dict(Counter(map(task_of, self.labels)))

    def uses(self, labels: Sequence[str]) -> Amounts:
        """What some instances use together."""
        return added([self.of(label) for label in labels])


def estimate(program: Program, source: str, top: str, fixed: Optional[Mapping[str, Amounts]] = None) -> Estimate:
    """The uses of the tasks of a source file; `fixed` are those that a device file gives (`Device.tasks`).

    plans.Refused where the program refuses the source; Fault as its calls.
    """
    given = dict(fixed or {})
    whole = plans.ask(program, source, top, devices.one_slot().text())
    found = Estimate({}, list(whole.tasks), {stream.name: stream.width for stream in whole.streams})
    counts = found.counts()
    for task, count in counts.items():
        if task in given:
            found.tasks[task] = list(given[task])
            continue
        alone = plans.ask(program, source, top, devices.one_slot({other: NOTHING for other in counts if other != task}).text())
        found.tasks[task] = [use // count for use in alone.used()]
    return found


def shortage(program: Program, source: str, top: str, device: str) -> List[str]:
    """Why the program finds no plan of a source file on a device file: at most three lines, each a sentence with a resource, what tasks need of it and
    what slots have. No line where nothing is known, as where the program refuses a file."""
    try:
        known = devices.read(device)
        found = estimate(program, source, top, known.tasks)
        groups = slot_groups.groups(found.labels, slot_groups.links(source, top, found.labels, found.widths))
        return (shortages(found, known, groups) or crowded(found, known, groups))[:LINES]
    except (Fault, OSError, ValueError, LookupError):
        return []


def shortages(found: Estimate, known: Device, groups: Sequence[Sequence[str]]) -> List[str]:
    """Why no plan can have room: a line for each resource of which a group needs more than any slot has, pinned tasks more than their slot, or all
    tasks more than all slots; the greatest lack first, or that no slot is open. `groups` are the instances that share a slot."""
    rooms = rooms_of(known)
    largest = [max(column) for column in zip(*rooms)]
    lines: List[Tuple[float, str]] = []
    seen = set()
    for group in groups:
        tasks = sorted(map(task_of, group))
        if str(tasks) not in seen:
            lines += _lacking(_named(group), found.uses(group), largest, "no slot has more than", known.percent)
        seen.add(str(tasks))
    for slot, labels in pinned(known, groups).items():
        row, col = known.place(slot)
        lines += _lacking(f"the tasks pinned to slot {row} {col} need", found.uses(labels), rooms[slot], "it has", known.percent)
    lines += _lacking("all tasks together need", found.uses(found.labels), added(rooms), "all slots have", known.percent)
    if not lines and all(map(known.is_forbidden, range(len(rooms)))):
        return ["no slot is open: all are forbidden"]
    return [line for _, line in sorted(lines, key=lambda one: -one[0])]


def pinned(known: Device, groups: Sequence[Sequence[str]]) -> Dict[int, List[str]]:
    """The instances that pins bring to each slot, by its number."""
    there: Dict[int, List[str]] = {}
    for group in groups:
        slots = [known.number(known.pins[label]) for label in group if label in known.pins]
        if slots:
            there.setdefault(slots[0], []).extend(group)
    return there


def _named(group: Sequence[str]) -> str:
    """The beginning of a sentence of what a group needs."""
    return f"{group[0]} needs" if len(group) == 1 else f"{group[0]} and {len(group) - 1} more that share its slot need"


def _lacking(who: str, needs: Amounts, room: Amounts, where: str, percent: int) -> List[Tuple[float, str]]:
    """A line for each resource of which there is less than is needed, each behind the needs in units of what there is."""
    lines = []
    for resource, need, has in zip(RESOURCES, needs, room):
        if need > has:
            line = f"{who} {need} {resource}, and {where} {has} (at {percent} percent): {need - has} {resource} are missing"
            lines.append((_times(need, has), line))
    return lines


def _times(need: int, has: int) -> float:
    """How many times of what there is something needs."""
    return need / has if has else float("inf") if need else 0.0


def rooms_of(known: Device) -> List[Amounts]:
    """What tasks may use of each slot, row by row."""
    return [known.room(number) for number in range(len(known.slots))]


def crowded(found: Estimate, known: Device, groups: Sequence[Sequence[str]]) -> List[str]:
    """Which group finds no slot where groups are taken in order, as `--plan fit` does, and how full all slots are then; no line where each finds one."""
    left = {number: room for number, room in enumerate(rooms_of(known)) if not known.is_forbidden(number)}
    there = pinned(known, groups)
    is_pinned = {label for labels in there.values() for label in labels}
    for slot, labels in there.items():
        left[slot] = [has - use for has, use in zip(left[slot], found.uses(labels))]
    for group in groups:
        if group[0] not in is_pinned:
            needs = found.uses(group)
            slots = [slot for slot, room in left.items() if all(need <= has for need, has in zip(needs, room))]
            if not slots:
                return _crowded_lines(found, known, group, left)
            left[slots[0]] = [has - need for has, need in zip(left[slots[0]], needs)]
    return []


def _crowded_lines(found: Estimate, known: Device, group: Sequence[str], left: Mapping[int, Amounts]) -> List[str]:
    """What a group needs, which of the open slots comes nearest to it, and how full all slots would be."""
    needs = found.uses(group)
    lacks = [max((_times(need, has), at) for at, (need, has) in enumerate(zip(needs, room))) + (slot,) for slot, room in left.items()]
    _, at, slot = min(lacks)
    row, col = known.place(slot)
    return [
        f"{_named(group)} {needs[at]} {RESOURCES[at]}, and of what the tasks placed before leave slot {row} {col} comes nearest with {left[slot][at]}",
        _share(found, known, at),
    ]


def _share(found: Estimate, known: Device, at: int) -> str:
    """What all tasks need of a resource, and what all slots have."""
    wanted, has = found.uses(found.labels)[at], added(rooms_of(known))[at]
    return f"all tasks together need {wanted} {RESOURCES[at]} of the {has} of all slots (at {known.percent} percent)"


def fullest(found: Estimate, known: Device) -> str:
    """What all tasks need of the resource of which they leave least."""
    pairs = zip(found.uses(found.labels), added(rooms_of(known)))
    return _share(found, known, max((_times(need, has), at) for at, (need, has) in enumerate(pairs))[1])
