"""Annealing of a layout by moves and swaps."""
from __future__ import annotations

import math
import random
from typing import List, NamedTuple, Optional

from .layout import Layout


class Schedule(NamedTuple):
    """How a layout is annealed: the first and the last temperature in bits, the cost in bits of what one average node needs beyond a slot's room, and
    the number of proposals."""

    hot: float
    cold: float
    overfull: float
    proposals: int


class Found(NamedTuple):
    """A layout without an overfull slot: its cost, and the slot of each node."""

    cost: int
    at: List[int]


# Proposals at one temperature.
SWEEP = 500
# How many times the cost of overfull slots is at the end what it was, where there are some all through the second half.
STIFFER = 40.0
# Of a hundred proposals those that move a node to a neighbour's slot, and those that move it to any slot; the others are swaps.
TO_NEIGHBOUR, TO_ANY = 60, 10


def sweep(layout: Layout, some: random.Random, temperature: float, weight: float, best: Optional[Found]) -> Optional[Found]:
    """Makes a round of proposals at one temperature; gives the best layout that fits, of this round or the one given."""
    chance, log, at, pull, over = some.random, math.log, layout.at, layout.pull, layout.over
    movable = [node for node, slot in enumerate(layout.graph.fixed) if slot is None]
    many, slots, near = len(movable), len(layout.board.rooms), layout.graph.near
    for _ in range(SWEEP):
        node, sort, other = movable[int(chance() * many)], chance() * 100, -1
        if sort < TO_NEIGHBOUR and near[node]:
            there = at[near[node][int(chance() * len(near[node]))][0]]
        elif sort < TO_NEIGHBOUR + TO_ANY:
            there = int(chance() * slots)
        else:
            other = movable[int(chance() * many)]
            there = at[other]
        here = at[node]
        if here == there:
            continue
        change: float = pull[node][there] - pull[node][here] if other < 0 else layout.rise_by_swap(node, other)
        limit = -temperature * log(1.0 - chance())
        if change > limit and not over[here] and not over[there]:
            continue
        change += weight * (layout.overfill(node, there) if other < 0 else layout.overfill_by_swap(node, other))
        if change > limit:
            continue
        if other < 0:
            layout.move(node, there)
        else:
            layout.swap(node, other)
        if (best is None or layout.cost < best.cost) and layout.fits():
            best = Found(layout.cost, list(at))
    return best


def anneal(layout: Layout, some: random.Random, schedule: Schedule) -> Optional[Found]:
    """Anneals a layout; gives the best one that fits on the way, None where none did. The layout is left as it is at the end."""
    best = Found(layout.cost, list(layout.at)) if layout.fits() else None
    rounds = max(1, schedule.proposals // SWEEP)
    cooling = (schedule.cold / schedule.hot) ** (1 / rounds)
    temperature, weight = schedule.hot, schedule.overfull
    if any(slot is None for slot in layout.graph.fixed) and len(layout.board.rooms) > 1:
        for number in range(rounds):
            best = sweep(layout, some, temperature, weight, best)
            temperature *= cooling
            if 2 * number > rounds and not layout.fits():
                weight *= STIFFER ** (2 / rounds)
    return best
