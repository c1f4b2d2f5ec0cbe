"""Coarser graphs: nodes that share heavy streams and stand in one place are merged by pairs, and these again."""
from __future__ import annotations

import random
from typing import Dict, List, NamedTuple, Optional, Sequence

from ..host.device import Amounts
from .graph import Board, Graph, Near

# A round of merging is the last where it leaves more than this share of the nodes.
SHRINKS = 0.95


class Level(NamedTuple):
    """A graph, where its nodes stand, and for each of them its node in the next coarser graph (none in the coarsest)."""

    graph: Graph
    at: List[int]
    coarse: List[int]


def levels(graph: Graph, board: Board, at: Sequence[int], few: int, part: int, some: random.Random) -> List[Level]:
    """A graph and coarser and coarser ones, until one has at most `few` nodes; only nodes that stand in one place are merged, and to such as need at most
    so great a part of the largest slot."""
    most = [max(column) / part for column in zip(*board.rooms)]
    found: List[Level] = []
    while True:
        coarse = _merged(graph, at, most, some)
        count = 1 + max(coarse, default=-1)
        if len(coarse) <= few or count > SHRINKS * len(coarse):
            return found + [Level(graph, list(at), [])]
        found.append(Level(graph, list(at), coarse))
        places = [0] * count
        for place, node in zip(at, coarse):
            places[node] = place
        graph, at = _contracted(graph, coarse, count), places


def _merged(graph: Graph, at: Sequence[int], most: Sequence[float], some: random.Random) -> List[int]:
    """The coarse node of each node: neighbours are merged by pairs, in an order at random, each with the heaviest streams for its size."""
    order = [node for node, slot in enumerate(graph.fixed) if slot is None]
    some.shuffle(order)
    mate: Dict[int, int] = {}
    for node in order:
        if node not in mate:
            partners = [it for it in graph.near[node] if it.node not in mate and at[it.node] == at[node] and _may_merge(graph, node, it.node, most)]
            if partners:
                other = max(partners, key=lambda it: (it.bits / (1 + sum(graph.needs[it.node]) + sum(graph.needs[node])), some.random())).node
                mate[node], mate[other] = other, node
    coarse: List[int] = []
    count = 0
    for node in range(len(graph.needs)):
        other = mate.get(node, node)
        coarse.append(coarse[other] if other < node else count)
        count += other >= node
    return coarse


def _may_merge(graph: Graph, one: int, other: int, most: Sequence[float]) -> bool:
    """Whether two nodes together need no more than a merged node may, and the other one is free."""
    return graph.fixed[other] is None and all(a + b <= limit for a, b, limit in zip(graph.needs[one], graph.needs[other], most))


def _contracted(graph: Graph, coarse: Sequence[int], count: int) -> Graph:
    """The graph of the coarse nodes."""
    needs: List[Amounts] = [[0] * len(graph.needs[0]) for _ in range(count)]
    near: List[Dict[int, int]] = [{} for _ in range(count)]
    fixed: List[Optional[int]] = [None] * count
    for node, at in enumerate(coarse):
        needs[at] = [a + b for a, b in zip(needs[at], graph.needs[node])]
        fixed[at] = graph.fixed[node]
        for other, bits in graph.near[node]:
            if coarse[other] != at:
                near[at][coarse[other]] = near[at].get(coarse[other], 0) + bits
    return Graph(needs, [[Near(*pair) for pair in sorted(of.items())] for of in near], fixed)
