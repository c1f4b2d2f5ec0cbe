"""Passes over a layout, as those of Fiduccia and Mattheyses, and a descent by moves and swaps."""
from __future__ import annotations

import heapq
import random
from typing import List, Tuple

from .layout import Layout

# A pass ends after so many moves without a lower cost.
PATIENCE = 60


class Pass:
    """Moves always the node whose move lowers the cost most or raises it least, each once and into slots with room alone; and takes back what came
    after the lowest cost. `offers` are the moves by what they change, some of them out of date; `waiting[slot]` the nodes that want into a full slot.
    Nodes whose neighbours all stand beside them have no offer until one of these moves."""

    def __init__(self, layout: Layout, some: random.Random) -> None:
        self.layout, self.chance = layout, some.random
        self.is_done = [slot is not None for slot in layout.graph.fixed]
        self.offers: List[Tuple[int, float, int, int]] = []
        self.waiting: List[List[int]] = [[] for _ in layout.board.rooms]
        for node, is_done in enumerate(self.is_done):
            if not is_done and layout.pull[node][layout.at[node]] > 0:
                self.offer(node)

    def offer(self, node: int) -> None:
        """Offers the best move of a node into a slot with room; where a full slot would be better the node waits for that too."""
        pull, here, has_room = self.layout.pull[node], self.layout.at[node], self.layout.has_room
        best = wanted = here
        for slot, cost in enumerate(pull):
            if slot != here and (best == here or cost < pull[best]):
                if has_room(node, slot):
                    best = slot
                elif wanted == here or cost < pull[wanted]:
                    wanted = slot
        if best != here:
            heapq.heappush(self.offers, (pull[best] - pull[here], self.chance(), node, best))
        if wanted != here and (best == here or pull[wanted] < pull[best]):
            self.waiting[wanted].append(node)

    def make(self) -> bool:
        """Makes the pass; whether the cost is lower than before."""
        layout, first, least = self.layout, self.layout.cost, self.layout.cost
        moved: List[Tuple[int, int]] = []
        kept = 0
        while self.offers and len(moved) - kept < PATIENCE:
            change, _, node, slot = heapq.heappop(self.offers)
            here = layout.at[node]
            if self.is_done[node] or layout.pull[node][slot] - layout.pull[node][here] != change:
                continue
            if not layout.has_room(node, slot):
                self.offer(node)
                continue
            layout.move(node, slot)
            moved.append((node, here))
            self.is_done[node] = True
            if layout.cost < least:
                least, kept = layout.cost, len(moved)
            again, self.waiting[here] = self.waiting[here], []
            for other in again + [it.node for it in layout.graph.near[node]]:
                if not self.is_done[other]:
                    self.offer(other)
        for node, here in reversed(moved[kept:]):
            layout.move(node, here)
        return least < first


def refine(layout: Layout, some: random.Random) -> None:
    """Makes passes as long as they lower the cost."""
    while Pass(layout, some).make():
        pass


def descend(layout: Layout) -> None:
    """Moves and swaps nodes of a layout that fits as long as one of them lowers the cost, and keeps it fitting."""
    before = layout.cost + 1
    while layout.cost < before:
        before = layout.cost
        for node, slot in enumerate(layout.graph.fixed):
            if slot is None:
                lower(layout, node)


def lower(layout: Layout, node: int) -> None:
    """Moves a node to a slot where it costs less, or swaps it with one that stands there; no swap lowers the cost that lowers that of neither node."""
    pull = layout.pull[node]
    for slot in sorted(range(len(pull)), key=pull.__getitem__):
        if pull[slot] >= pull[layout.at[node]]:
            return
        if layout.has_room(node, slot):
            layout.move(node, slot)
            return
        for other, at in enumerate(layout.at):
            if at == slot and layout.graph.fixed[other] is None and layout.rise_by_swap(node, other) < 0 and layout.overfill_by_swap(node, other) <= 0:
                layout.swap(node, other)
                return
