"""Attempts at a placement, one after the other on as many processors as there are, until their number or the time is spent.

What is found does not depend on how many processors there are: it is the cheapest layout of the attempts 0 to N - 1, the first of several, where N
is how many were made. The time decides N alone, and an attempt that is not over by then does not count, nor do those after it.
"""
from __future__ import annotations

import multiprocessing
import os
import signal
import time
from multiprocessing.pool import AsyncResult
from typing import Any, Callable, List, NamedTuple, Optional

from . import exact, levels
from .anneal import Found
from .graph import Board, Graph


class Limits(NamedTuple):
    """How long to look: seconds, or a number of attempts where that is not None; and on how many processors."""

    seconds: float
    attempts: Optional[int]
    workers: int


class Result(NamedTuple):
    """The layouts that the attempts found, in their order, None for one without; and whether the cheapest is known to be the cheapest of all."""

    layouts: List[Optional[Found]]
    is_least: bool

    def best(self) -> Optional[Found]:
        """The cheapest layout, the first of several."""
        fitting = [it for it in self.layouts if it is not None]
        return min(fitting, key=lambda it: it.cost) if fitting else None


Tell = Callable[[Result], None]


def processors() -> int:
    """How many processors this process may use."""
    return len(os.sched_getaffinity(0)) if hasattr(os, "sched_getaffinity") else os.cpu_count() or 1


_given: List[Any] = []


def _begin(graph: Graph, board: Board, seed: int) -> None:
    """What a worker process keeps; Ctrl-C is its parent's."""
    signal.signal(signal.SIGINT, signal.SIG_IGN)
    _given[:] = [graph, board, seed]


def _attempt(number: int) -> Optional[Found]:
    graph, board, seed = _given
    return levels.attempt(graph, board, seed, number)


def run(graph: Graph, board: Board, seed: int, limits: Limits, tell: Tell) -> Result:
    """Makes attempts within limits, the first one whatever time it takes; `tell` is called several times a second with what is found so far."""
    begun = time.monotonic()
    first = exact.search(graph, board, levels.attempt(graph, board, seed, 0))
    result = Result([first.found], first.is_whole or bool(first.found and first.found.cost == 0))
    tell(result)
    if result.is_least or limits.attempts == 1 or time.monotonic() - begun >= limits.seconds and limits.attempts is None:
        return result
    with multiprocessing.Pool(limits.workers, _begin, (graph, board, seed)) as pool:
        waiting: List[AsyncResult[Optional[Found]]] = []
        made = 1
        while True:
            while len(waiting) < 2 * limits.workers and (limits.attempts is None or made < limits.attempts):
                waiting.append(pool.apply_async(_attempt, (made,)))
                made += 1
            if not waiting or limits.attempts is None and time.monotonic() - begun >= limits.seconds:
                return result
            waiting[0].wait(0.1)
            while waiting and waiting[0].ready():
                result.layouts.append(waiting.pop(0).get())
            tell(result)
