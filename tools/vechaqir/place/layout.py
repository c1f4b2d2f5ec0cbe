"""Nodes in slots, with what each move would change: the gains of Fiduccia and Mattheyses, kept for every node and slot."""
from __future__ import annotations

from typing import List, Sequence

from .graph import Board, Graph


class Layout:
    """Where each node stands, kept with its cost, with what is free in each slot, and with how much of each slot is overfull.

    `pull[node][slot]` is what the streams of a node would cost if it stood in a slot, so a move changes the cost by a difference of two of them.
    `over[slot]` is what nodes need beyond a slot's room, in needs of an average node.
    """

    def __init__(self, graph: Graph, board: Board, at: Sequence[int]) -> None:
        self.graph, self.board, self.at = graph, board, list(at)
        distance, count = board.distance, range(len(board.rooms))
        self.pull: List[List[int]] = []
        for near in graph.near:
            pull = [0 for _ in count]
            for other, bits in near:
                pull = [cost + bits * far for cost, far in zip(pull, distance[at[other]])]
            self.pull.append(pull)
        self.cost = sum(pull[slot] for pull, slot in zip(self.pull, at)) // 2
        # for each two slots what a neighbour's pulls gain, for each bit, by a move from the one to the other
        self.step = [[[to - of for of, to in zip(distance[here], distance[there])] for there in count] for here in count]
        self.unit = [max(1.0, sum(column) / len(graph.needs)) for column in zip(*graph.needs)]
        self.free = [list(room) for room in board.rooms]
        for node, slot in enumerate(at):
            self._take(slot, graph.needs[node], 1)
        self.over = [self.excess(slot, [0] * len(self.unit), 1) for slot in count]

    def _take(self, slot: int, needs: Sequence[int], sign: int) -> None:
        """Takes needs from what is free in a slot, or gives them back where the sign is -1."""
        self.free[slot] = [free - sign * need for free, need in zip(self.free[slot], needs)]

    def excess(self, slot: int, needs: Sequence[int], sign: int) -> float:
        """How overfull a slot would be with these needs more, or less where the sign is -1."""
        over = 0.0
        for free, need, unit in zip(self.free[slot], needs, self.unit):
            if sign * need > free:
                over += (sign * need - free) / unit
        return over

    def overfill(self, node: int, there: int) -> float:
        """By how much a move of a node would change what is overfull."""
        here, needs = self.at[node], self.graph.needs[node]
        return self.excess(there, needs, 1) + self.excess(here, needs, -1) - self.over[there] - self.over[here]

    def overfill_by_swap(self, node: int, other: int) -> float:
        """By how much a swap of two nodes would change what is overfull."""
        here, there = self.at[node], self.at[other]
        needs = [mine - its for mine, its in zip(self.graph.needs[node], self.graph.needs[other])]
        return self.excess(there, needs, 1) + self.excess(here, needs, -1) - self.over[there] - self.over[here]

    def rise_by_swap(self, node: int, other: int) -> int:
        """By how much a swap of two nodes would raise the cost."""
        here, there, mine, its = self.at[node], self.at[other], self.pull[node], self.pull[other]
        apart = 2 * self.graph.between[node].get(other, 0) * self.board.distance[here][there]
        return mine[there] - mine[here] + its[here] - its[there] + apart

    def has_room(self, node: int, slot: int) -> bool:
        """Whether a slot has room for a node that stands in another one."""
        for free, need in zip(self.free[slot], self.graph.needs[node]):
            if need > free:
                return False
        return True

    def move(self, node: int, there: int) -> None:
        """Moves a node to another slot."""
        here = self.at[node]
        self.cost += self.pull[node][there] - self.pull[node][here]
        self.at[node] = there
        for slot, sign in ((here, -1), (there, 1)):
            self._take(slot, self.graph.needs[node], sign)
            self.over[slot] = sum([-free / unit for free, unit in zip(self.free[slot], self.unit) if free < 0])
        step, pull = self.step[here][there], self.pull
        for other, bits in self.graph.near[node]:
            pull[other] = [cost + bits * more for cost, more in zip(pull[other], step)]

    def swap(self, node: int, other: int) -> None:
        """Puts two nodes of different slots in each other's place."""
        here, there = self.at[node], self.at[other]
        self.move(node, there)
        self.move(other, here)

    def fits(self) -> bool:
        """Whether no slot is overfull."""
        return not any(self.over)
