"""A placement of a program's tasks on a device, found by a search, as pins of its device file.

Nothing of the search need be trusted: the program checks the pins, and its numbers are those that are told.
"""
from __future__ import annotations

from dataclasses import dataclass, field
from typing import Dict, List, NamedTuple, Optional, Sequence, Tuple

from ..host import estimate as estimates, plan as plans, slot_groups
from ..host.device import Device, SlotPlace
from ..host.estimate import Estimate
from ..host.faults import Fault
from ..host.plan import Plan
from ..host.program import Program
from . import attempts as runs, exact, graph as graphs
from .anneal import Found
from .attempts import Limits, Result

# Of how many of the cheapest placements the program is asked for the registers.
FEW = 8


class NoPlacement(Fault):
    """No placement fits, or none was found; the lines say which resource is short."""

    def __init__(self, *lines: str) -> None:
        super().__init__(*lines, status=4)


@dataclass
class Request:
    """What is to be placed: files, the device as it is read, and what the program says of the source."""

    program: Program
    source: str
    top: str
    device: Device
    found: Estimate = field(default_factory=Estimate)
    groups: List[List[str]] = field(default_factory=list)
    links: List[slot_groups.Link] = field(default_factory=list)


class Placement(NamedTuple):
    """A device file with a pin for each group, the program's plan of it, how many attempts were made and which found it, and whether none costs less."""

    text: str
    plan: Plan
    attempts: int
    number: int
    is_least: bool


def read_request(program: Program, source: str, top: str, device: Device) -> Request:
    """Asks the program for the uses of the tasks, and follows the source's streams. plans.Refused, LookupError and OSError as its parts."""
    found = estimates.estimate(program, source, top, device.tasks)
    links = slot_groups.links(source, top, found.labels, found.widths)
    groups = slot_groups.by_structure(slot_groups.groups(found.labels, links), links)
    return Request(program, source, top, device, found, groups, links)


def problem_of(request: Request, is_by_levels: bool) -> Tuple[graphs.Graph, graphs.Board]:
    """The groups as nodes and the open slots, by the resources that may be short."""
    scarce = graphs.scarce_in(request.device, request.found.uses(request.found.labels))
    board = graphs.board_of(request.device, scarce, is_by_levels)
    return graphs.counted(graphs.graph_of(request.found, request.groups, request.links, request.device, board, scarce), board)


def pins_of(request: Request, slots: Sequence[int]) -> Dict[str, SlotPlace]:
    """The pins of the device's own file, and one for each group that has none; `slots` has the slot of each group by its number."""
    pins = dict(request.device.pins)
    for group, slot in zip(request.groups, slots):
        if not any(label in pins for label in group):
            pins[group[0]] = request.device.place(slot)
    return pins


def place(request: Request, seed: int, limits: Limits, is_by_levels: bool, tell: runs.Tell) -> Placement:
    """The cheapest placement that is found, in bits times borders; with `is_by_levels` the one of the cheapest few, in bits times the registers of
    borders, that takes the fewest registers with the balance's. NoPlacement where none is found; Fault where the program does not take it."""
    lines = estimates.shortages(request.found, request.device, request.groups)
    if lines:
        raise NoPlacement(*lines[: estimates.LINES])
    graph, board = problem_of(request, is_by_levels)
    result = runs.run(graph, board, seed, limits, tell)
    if not result.best():
        is_known = result.is_least or exact.cannot_fit(graph, board)
        none = "no placement fits" if is_known else f"no placement was found that fits, in {len(result.layouts)} attempts"
        raise NoPlacement(none, estimates.fullest(request.found, request.device))
    tried = [checked(request, board, result, it) for it in cheapest(result.layouts, FEW if is_by_levels else 1)]
    return min(tried, key=lambda placement: registers(placement.plan)) if is_by_levels else tried[0]


def cheapest(layouts: Sequence[Optional[Found]], count: int) -> List[Found]:
    """The cheapest layouts, each once, the first of equal ones first."""
    kept: List[Found] = []
    for layout in sorted((it for it in layouts if it), key=lambda it: it.cost):
        if layout not in kept:
            kept.append(layout)
    return kept[:count]


def registers(plan: Plan) -> int:
    """The registers of borders and of the balance."""
    return plan.registers + sum(stream.width * stream.latency for stream in plan.streams)


def checked(request: Request, board: graphs.Board, result: Result, layout: Found) -> Placement:
    """A layout as a device file, once the program has planned it and told the cost that it has here."""
    slots = [board.slots[slot] for slot in layout.at]
    text = request.device.text(pins_of(request, slots))
    try:
        plan = plans.ask(request.program, request.source, request.top, text)
    except plans.Refused as refused:
        raise Fault(f"the program does not take the placement: {refused}") from None
    slot_of = {label: slot for group, slot in zip(request.groups, slots) for label in group}
    cost = sum(link.width * request.device.distance(slot_of[link.writer], slot_of[link.reader]) for link in request.links)
    if plan.cost != cost or any(plan.tasks[label] != request.device.place(slot) for label, slot in slot_of.items()):
        raise Fault(f"the program's plan is not the placement: it costs {plan.cost}, and {cost} here")
    return Placement(text, plan, len(result.layouts), result.layouts.index(layout), result.is_least)
