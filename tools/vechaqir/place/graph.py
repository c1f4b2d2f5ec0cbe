"""What is placed, and where: nodes with their needs and the bits of the streams between them, and the open slots of a device.

A node is a group of instances, or several groups that are moved together. Nodes and open slots are numbered from 0. Only resources count that may be
short: of the others every slot holds what all nodes need together, or what those need that fit by another resource.
"""
from __future__ import annotations

from dataclasses import dataclass, field
from typing import Dict, List, NamedTuple, Optional, Sequence, Tuple

from ..host.device import RESOURCES, Amounts, Device
from ..host.estimate import Estimate
from ..host.slot_groups import Link


class Near(NamedTuple):
    """A neighbour of a node, and the bits of all streams between the two."""

    node: int
    bits: int


@dataclass
class Board:
    """The open slots: of each its number in the device, the room for each scarce resource, and the distance to each slot."""

    slots: List[int]
    rooms: List[Amounts]
    distance: List[List[int]]

    def nearest(self) -> int:
        """The least distance of two slots that are apart, 1 where none are."""
        return min((far for row in self.distance for far in row if far > 0), default=1)


@dataclass
class Graph:
    """The nodes: of each what it needs of each scarce resource, its neighbours, and the open slot in which it must stand, None where it may stand in any."""

    needs: List[Amounts]
    near: List[List[Near]]
    fixed: List[Optional[int]]
    between: List[Dict[int, int]] = field(init=False)

    def __post_init__(self) -> None:
        """`between[one][other]` are the bits between two nodes, where there are some."""
        self.between = [dict(near) for near in self.near]

    def cost(self, at: Sequence[int], board: Board) -> int:
        """The bits of all streams times the distance of their ends, where node i stands in slot at[i]."""
        twice = sum(it.bits * board.distance[slot][at[it.node]] for slot, near in zip(at, self.near) for it in near)
        return twice // 2


def board_of(device: Device, scarce: Sequence[int], is_by_levels: bool) -> Board:
    """The open slots of a device; distances are borders, or with `is_by_levels` the registers of a wire."""
    slots = [number for number in range(len(device.slots)) if not device.is_forbidden(number)]
    rooms = [[device.room(number)[resource] for resource in scarce] for number in slots]
    distance = device.latency if is_by_levels else device.distance
    return Board(slots, rooms, [[distance(one, other) for other in slots] for one in slots])


def scarce_in(device: Device, total: Amounts) -> List[int]:
    """The places in RESOURCES of those of which some open slot holds less than all tasks need."""
    rooms = [device.room(number) for number in range(len(device.slots)) if not device.is_forbidden(number)]
    return [at for at in range(len(RESOURCES)) if any(room[at] < total[at] for room in rooms)]


def graph_of(found: Estimate, groups: Sequence[Sequence[str]], links: Sequence[Link], device: Device, board: Board, scarce: Sequence[int]) -> Graph:
    """The groups as nodes; a pin of one instance is that of its group."""
    node_of = {label: node for node, group in enumerate(groups) for label in group}
    bits: List[Dict[int, int]] = [{} for _ in groups]
    for link in links:
        one, other = node_of[link.writer], node_of[link.reader]
        if one != other:
            bits[one][other] = bits[other][one] = bits[one].get(other, 0) + link.width
    fixed: List[Optional[int]] = [None] * len(groups)
    for label, place in device.pins.items():
        fixed[node_of[label]] = board.slots.index(device.number(place))
    needs = [[found.uses(group)[resource] for resource in scarce] for group in groups]
    return Graph(needs, [[Near(*pair) for pair in sorted(near.items())] for near in bits], fixed)


def counted(graph: Graph, board: Board) -> Tuple[Graph, Board]:
    """A graph and a board without the resources that no slot lacks where it holds enough of another one."""
    kept = list(range(len(board.rooms[0])))
    for one in list(kept):
        if any(_is_implied(graph, board, one, other) for other in kept if other != one):
            kept.remove(one)
    needs, rooms = ([[amounts[it] for it in kept] for amounts in lists] for lists in (graph.needs, board.rooms))
    return Graph(needs, graph.near, graph.fixed), Board(board.slots, rooms, board.distance)


def _is_implied(graph: Graph, board: Board, one: int, other: int) -> bool:
    """Whether nodes that fit into a slot by the resource `other` fit by `one` too: those that need most of `one` for what they need of `other`, and a
    part of the last of them, need no more than the slot has."""
    greedy = sorted(graph.needs, key=lambda needs: needs[one] / needs[other] if needs[other] else float("inf"), reverse=True)
    for room in board.rooms:
        left, used = float(room[other]), 0.0
        for needs in greedy:
            part = min(1.0, left / needs[other]) if needs[other] else 1.0
            left, used = left - part * needs[other], used + part * needs[one]
        if used > room[one]:
            return False
    return True
