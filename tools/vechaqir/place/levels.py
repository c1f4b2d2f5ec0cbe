"""One attempt at a placement: the device is halved and halved again, and what comes of it is improved in rounds.

Each step is a cycle: the graph is made coarser and coarser by merging what stands in one place, the coarsest one is annealed, and on the way back each
finer one is improved by passes of moves. An attempt is a function of its graph, its board, its seed and its number alone, so that it gives the same
layout on every machine.
"""
from __future__ import annotations

import random
from typing import List, NamedTuple, Optional, Sequence, Tuple

from . import boards, coarse
from .anneal import Found, Schedule, anneal
from .graph import Board, Graph
from .layout import Layout
from .passes import descend, refine

# How many nodes the coarsest graph has for each slot, and the part of the largest slot that a node may need; a cycle takes one of these. The rounds take
# the first too, where all that stands in a slot is mostly one node, so that slots change their places.
WHOLE, COARSEST = [(1, 1)], [(2, 3), (3, 3), (4, 3), (6, 3)]
# What an average node beyond a slot's room costs, in average streams: attempts take them in turn, since loose devices ask for the first, full ones for
# the others.
OVERFULL = (8.0, 2.0, 30.0, 4.0)
# How often the device is halved; the best layout is improved. The rounds of the first attempt, how many more each later one makes, and the most.
STARTS, ROUNDS, MORE, MOST = 4, 8, 1, 40


class Heat(NamedTuple):
    """How the coarsest graph of a cycle is annealed: the first temperature in average streams, the proposals for each node and slot, and the cost of
    what is overfull."""

    hot: float
    sweeps: int
    overfull: float


# The heat while the device is halved; that of the rounds begins at a temperature at random between none and twice this.
HALVING, HOT, SWEEPS = (1.0, 10), 2.0, 20
# The last temperature, in average streams.
COLD = 0.12


def attempt(graph: Graph, board: Board, seed: int, number: int) -> Optional[Found]:
    """The best layout of one attempt, None where none of its layouts fits."""
    some = random.Random(f"{seed} {number}")
    overfull = OVERFULL[number % len(OVERFULL)]
    slots = [[slot] for slot in range(len(board.rooms))]
    best = min((halved(graph, board, Heat(*HALVING, overfull), some) for _ in range(STARTS)), key=worth)
    for _ in range(min(ROUNDS + MORE * number, MOST)):
        layout = cycle(graph, board, best.at, slots, some.choice(WHOLE + COARSEST), Heat(HOT * some.random(), SWEEPS, overfull), some)
        best = min(layout, best, key=worth)
    if not best.fits():
        return None
    descend(best)
    return Found(best.cost, best.at)


def worth(layout: Layout) -> Tuple[float, int]:
    """What makes one layout better than another: less that is overfull, and then less cost."""
    return sum(layout.over), layout.cost


def halved(graph: Graph, board: Board, heat: Heat, some: random.Random) -> Layout:
    """A layout by halving: all nodes stand in one region at first, and those of a region are divided between its parts, until these are slots."""
    regions = boards.coarser(board, boards.fill(graph, board), some)
    finer = [boards.Regions(board, [], list(range(len(board.rooms))))] + regions[:-1]
    at = [0] * len(graph.needs)
    for parent, child in zip(reversed(regions), reversed(finer)):
        fixed = [None if slot is None else child.of[slot] for slot in graph.fixed]
        at = cycle(Graph(graph.needs, graph.near, fixed), child.board, at, parent.parts, some.choice(COARSEST), heat, some).at
    return Layout(graph, board, at)


def cycle(graph: Graph, board: Board, within: Sequence[int], parts: Sequence[Sequence[int]], size: Tuple[int, int], heat: Heat, some: random.Random) -> Layout:
    """A layout of nodes that stand within places, whose parts are slots of the board: each begins in any part of its place."""
    few, part = size
    graphs = coarse.levels(graph, board, within, few * len(board.rooms), part, some)
    coarsest = graphs[-1].graph
    at = [some.choice(parts[place]) if slot is None else slot for place, slot in zip(graphs[-1].at, coarsest.fixed)]
    layout = annealed(Layout(coarsest, board, at), heat, some)
    refine(layout, some)
    for level in graphs[-2::-1]:
        layout = Layout(level.graph, board, [layout.at[node] for node in level.coarse])
        refine(layout, some)
        if layout.fits():
            descend(layout)
    return layout


def annealed(layout: Layout, heat: Heat, some: random.Random) -> Layout:
    """A layout after annealing; where it does not fit in the end, the best on the way that did."""
    unit = mean_bits(layout.graph) * layout.board.nearest()
    proposals = heat.sweeps * len(layout.at) * len(layout.board.rooms)
    best = anneal(layout, some, Schedule(max(COLD, heat.hot) * unit, COLD * unit, heat.overfull * unit, proposals))
    return Layout(layout.graph, layout.board, best.at) if best and not layout.fits() else layout


def mean_bits(graph: Graph) -> float:
    """The average of the bits between two neighbours."""
    bits: List[int] = [it.bits for near in graph.near for it in near]
    return sum(bits) / len(bits) if bits else 1.0
