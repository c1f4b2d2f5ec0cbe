"""Coarser boards: slots that are near each other are joined by pairs to regions, these again, until there is one; so a placement begins with halves of
the device and ends in its slots, and the parts need not be those of rows and columns."""
from __future__ import annotations

import math
import random
from typing import Dict, List, NamedTuple, Sequence

from .graph import Board, Graph

# Distances between regions are averages, in so many parts of a border.
PARTS = 12
# What a region may hold, of what its slots may: the more slots the less, so that those to come still find room, but at least this share.
LEAST_SHARE = 0.8


class Regions(NamedTuple):
    """A coarser board, for each region its parts on the board before it, and for each slot of the device its region."""

    board: Board
    parts: List[List[int]]
    of: List[int]


def fill(graph: Graph, board: Board) -> float:
    """How full all slots together are, of the resource that is scarcest."""
    return max((sum(needs) / max(1, sum(rooms)) for needs, rooms in zip(zip(*graph.needs), zip(*board.rooms))), default=0.0)


def coarser(board: Board, full: float, some: random.Random) -> List[Regions]:
    """Coarser and coarser boards, the last with one region; `full` is how full all slots together are."""
    members = [[slot] for slot in range(len(board.rooms))]
    found: List[Regions] = []
    while len(members) > 1:
        parts = _paired(_between(board, members), some)
        members = [[slot for part in pair for slot in members[part]] for pair in parts]
        of = {slot: region for region, slots in enumerate(members) for slot in slots}
        found.append(Regions(_joined(board, members, full), parts, [of[slot] for slot in range(len(of))]))
    return found


def _between(board: Board, members: Sequence[Sequence[int]]) -> List[List[float]]:
    """The average distances between the slots of regions."""
    return [[sum(board.distance[a][b] for a in one for b in other) / len(one) / len(other) for other in members] for one in members]


def _paired(apart: Sequence[Sequence[float]], some: random.Random) -> List[List[int]]:
    """Pairs of regions, the nearest first, each region in one; what finds none that is half as far again stays alone."""
    pairs = sorted((apart[one][other], some.random(), one, other) for one in range(len(apart)) for other in range(one))
    taken: Dict[int, List[int]] = {}
    for far, _, one, other in pairs:
        if one not in taken and other not in taken and far <= 1.5 * pairs[0][0]:
            taken[one] = taken[other] = [one, other]
    return [[one] for one in range(len(apart)) if one not in taken] + [pair for one, pair in taken.items() if pair[0] == one]


def _joined(board: Board, members: Sequence[Sequence[int]], full: float) -> Board:
    """The board of regions: a distance of two is how much farther they are from each other than each from itself."""
    apart = _between(board, members)
    far = [[round(PARTS * (apart[a][b] - (apart[a][a] + apart[b][b]) / 2)) for b in range(len(apart))] for a in range(len(apart))]
    rooms = []
    for region in members:
        share = max(LEAST_SHARE, full ** (math.log(len(region)) / math.log(len(board.rooms)))) if len(region) < len(board.rooms) else 1.0
        rooms.append([int(share * sum(column)) for column in zip(*(board.rooms[slot] for slot in region))])
    return Board(board.slots, rooms, far)
