"""The cheapest layout of a small graph, by branch and bound over all layouts; and whether there is a layout at all."""
from __future__ import annotations

from typing import List, NamedTuple, Optional, Set, Tuple

from .anneal import Found
from .graph import Board, Graph

# Graphs of more free nodes are not looked through, nor further than so many steps, about a second of work.
NODES, STEPS = 24, 50_000


# How many nodes stand in a slot, and what each slot has left.
State = Tuple[int, Tuple[Tuple[int, ...], ...]]


class Searched(NamedTuple):
    """The cheapest layout that was found, and whether all layouts were looked through, so that none costs less."""

    found: Optional[Found]
    is_whole: bool


class Search:
    """Places node after node; `pull[node][slot]` is what the streams of a node to those placed before would cost in a slot."""

    def __init__(self, graph: Graph, board: Board, best: Optional[Found]) -> None:
        self.graph, self.board, self.best = graph, board, best
        self.steps = 0
        self.at: List[int] = [-1] * len(graph.needs)
        self.free = [list(room) for room in board.rooms]
        self.pull = [[0] * len(board.rooms) for _ in graph.needs]
        self.order = self._ordered()

    def _ordered(self) -> List[int]:
        """The fixed nodes, and then always the one with the most bits to those before it."""
        order = [node for node, slot in enumerate(self.graph.fixed) if slot is not None]
        left = [node for node, slot in enumerate(self.graph.fixed) if slot is None]
        while left:
            before = set(order)
            joined = [sum(it.bits for it in self.graph.near[node] if it.node in before) for node in left]
            order.append(left.pop(max(range(len(left)), key=lambda at: (joined[at], sum(self.graph.needs[left[at]]), -left[at]))))
        return order

    def place(self, depth: int, cost: int) -> None:
        """Looks through all layouts that begin as the nodes before `depth` in the order stand."""
        if depth == len(self.order):
            self.best = Found(cost, list(self.at))
            return
        node = self.order[depth]
        pull, fixed = self.pull[node], self.graph.fixed[node]
        slots = range(len(pull)) if fixed is None else [fixed]
        for slot in sorted(slots, key=pull.__getitem__):
            if self.steps < STEPS and all(need <= free for need, free in zip(self.graph.needs[node], self.free[slot])):
                self.steps += 1
                self._step(node, slot, 1)
                if self.best is None or cost + pull[slot] + sum(min(self.pull[node]) for node in self.order[depth + 1:]) < self.best.cost:
                    self.place(depth + 1, cost + pull[slot])
                self._step(node, slot, -1)

    def _step(self, node: int, slot: int, sign: int) -> None:
        """Puts a node into a slot, or takes it out again where the sign is -1."""
        self.at[node] = slot if sign > 0 else -1
        self.free[slot] = [free - sign * need for free, need in zip(self.free[slot], self.graph.needs[node])]
        for other, bits in self.graph.near[node]:
            if self.at[other] < 0:
                self.pull[other] = [cost + sign * bits * far for cost, far in zip(self.pull[other], self.board.distance[slot])]


def search(graph: Graph, board: Board, best: Optional[Found]) -> Searched:
    """The cheapest layout, where `best` is one that is known; as far as STEPS go."""
    if sum(slot is None for slot in graph.fixed) > NODES:
        return Searched(best, False)
    looked = Search(graph, board, best)
    looked.place(0, 0)
    return Searched(looked.best, looked.steps < STEPS)


def cannot_fit(graph: Graph, board: Board) -> bool:
    """Whether it is known, after at most STEPS, that no layout fits. Nodes are put into slots, those with the greatest needs first, and slots with the
    same room left count as one."""
    rooms = [list(room) for room in board.rooms]
    for needs, slot in zip(graph.needs, graph.fixed):
        if slot is not None:
            rooms[slot] = [has - need for has, need in zip(rooms[slot], needs)]
    nodes = sorted((needs for needs, slot in zip(graph.needs, graph.fixed) if slot is None), key=lambda needs: (sum(needs), needs), reverse=True)
    waiting: List[State] = [(0, tuple(sorted(tuple(room) for room in rooms)))] if all(has >= 0 for room in rooms for has in room) else []
    seen: Set[State] = set(waiting)
    while waiting and len(seen) <= STEPS:
        count, left = waiting.pop()
        if count == len(nodes):
            return False
        for room in set(left):
            rest = tuple(has - need for has, need in zip(room, nodes[count]))
            if min(rest, default=0) >= 0:
                others = list(left)
                others.remove(room)
                state = (count + 1, tuple(sorted(others + [rest])))
                if state not in seen:
                    seen.add(state)
                    waiting.append(state)
    return not waiting
