"""The least depths with which a run that stops comes to its end, if there are such."""
import os
from typing import Dict, List, Optional

from ..host.program import NoProgram, Program, TimedOut
from ..language.depths import Declared, declarations, with_depths
from ..machine.untimed import WRITES, Outcome
from . import pages
from .replay import ALL, Given, replay

DEEPEST, TICKS = 4_096, 20_000_000
# The most seconds of CPU time, and of wall-clock time, of the program's own run with the depths that are found.
CPU, WALL = 1, 20.0
Depths = Dict[Declared, int]


def cpu_seconds() -> float:
    """The CPU time of this process and of the programs that it has called."""
    return sum(os.times()[:4])


class Search:
    """The search of depths for one run, within a second of CPU time: a loaded machine gives the same answer."""

    def __init__(self, run: Given) -> None:
        self.run, self.end = run, cpu_seconds() + ALL
        self.names = declarations(run.source, run.network.top)
        self.own: Depths = {self.names[it.name]: it.depth or 2 for it in run.network.streams}
        self.is_late = False

    def outcome(self, depths: Depths) -> Optional[Outcome]:
        """The run with these depths; None if there is no time for it."""
        left = self.end - cpu_seconds()
        flat = {name: depths[declared] for name, declared in self.names.items() if declared in depths}
        found = replay(self.run, TICKS, left, flat) if left > 0 else None
        self.is_late = self.is_late or found is None or found.end == "limit"
        return None if self.is_late else found

    def is_done(self, depths: Depths) -> bool:
        found = self.outcome(depths)
        return found is not None and found.end == "done"

    def enough(self) -> Optional[Depths]:
        """The streams that have to be deeper, each as deep as a stream may be; None if no depth helps."""
        depths: Depths = {}
        while True:
            found = self.outcome(depths)
            if found is None or found.end == "done":
                return depths if found else None
            full = {self.names[it.instance.bindings[it.machine.streams[it.state.subject or 0]]] for it in found.running if it.status == WRITES}
            if full <= set(depths):
                return None
            depths.update({name: DEEPEST for name in full})

    def smallest(self, depths: Depths, name: Declared) -> int:
        """The least depth of one stream, the others as they are."""
        low, high = self.own[name], depths[name]
        while low < high and not self.is_late:
            middle = (low + high) // 2
            low, high = (low, middle) if self.is_done({**depths, name: middle}) else (middle + 1, high)
        return high

    def least(self) -> Optional[Depths]:
        """Depths that end the run, of which none can be less; None if there are none, or no time to find them."""
        depths = self.enough()
        if not depths:
            return None
        alone = {name: self.smallest(depths, name) for name in depths}
        if not self.is_late and not self.is_done(alone):
            alone = dict(depths)
            for name in alone:
                alone[name] = self.smallest(alone, name)
        return None if self.is_late else {name: depth for name, depth in alone.items() if depth > self.own[name]}


def ending(run: Given, program: Optional[Program]) -> Optional[List[str]]:
    """What to write so that a run that stops ends, checked by the program itself; None if no depths are known to do that."""
    search = Search(run)
    found = search.least()
    if search.is_late:
        return [f"give the streams that are full a greater depth; `{pages.tool('profile.py')} {run.words}` searches the least that ends the run"]
    if not found or not is_confirmed(run, found, program):
        return None
    parts = [f"`{name.name}` a depth of {depth} (line {line_of(run, name)}, now {search.own[name]})" for name, depth in found.items()]
    return [f"give {' and '.join(parts)}: the least with which this run ends"]


def line_of(run: Given, name: Declared) -> int:
    return next(it.place.line for it in run.source.tasks[name.task].streams if it.name == name.name)


def is_confirmed(run: Given, depths: Depths, program: Optional[Program]) -> bool:
    """Whether the program ends the run with these depths."""
    if program is None:
        return True
    try:
        words = ["run", "/dev/stdin", run.network.top] + ([run.data] if run.data else [])
        return program.call(words, with_depths(run.source, depths), WALL, CPU).status == 0
    except (NoProgram, TimedOut):
        return False
