"""What bounds a circuit's cycles: the way from the last tick of a run back to the first, and of a run that stands still who waits for whom."""
from __future__ import annotations

import bisect
from collections import Counter
from dataclasses import dataclass, field
from typing import Dict, List, NamedTuple, Optional, Tuple

from ..language import network
from ..machine.run import WAITS
from .profile import CODES, Profile, TaskProfile, Wait


class Step(NamedTuple):
    """A part of the way that bounds the run: `cycles` of it are due to `what`, which is `tick` (of the instance `name`, at `line` and `state`), `data` (a token of the stream `name` on
    its way), `room` (a place of the stream `name` that had to become free), or `memory` (the memory `name`, which was not ready)."""

    what: str
    name: str
    line: int
    cycles: int
    state: int = 0


def critical_way(found: Profile) -> List[Step]:
    """Why the last tick of the run was made no earlier, from the last cycle back to the first: each step waited for the one behind it in the list.

    A tick is made the cycle after the task's last one, or, where the task waited, after the token that it reads was written, or after the place that it writes to was freed.
    """
    ends = [(it.statuses.rfind(0) + 1, label) for label, it in found.tasks.items() if not it.instance.detached or not found.is_done]
    cycle, label = max(ends, default=(0, ""))
    way: List[Step] = []
    while cycle > 0:
        task = found.tasks[label]
        state = task.states[cycle - 1]
        way.append(Step("tick", label, task.machine.place(task.machine.states[state]).line, 1, state))
        before = task.statuses.rfind(0, 0, cycle - 1) + 1
        if before == cycle - 1:
            cycle = before
            continue
        cycle, label = _released(found, task, cycle, before, way)
    return way


def _released(found: Profile, task: TaskProfile, cycle: int, before: int, way: List[Step]) -> Tuple[int, str]:
    """What ended the wait of an instance before its tick in a cycle: the cycle and the instance of the tick that did, with the cycles between as a step of the way."""
    wait = task.wait_at(task.states[cycle - 1])
    made, other, what = 0, None, "memory"
    if wait.what != "memory":
        stream = found.streams[wait.name]
        number = bisect.bisect_left(stream.taken, cycle)
        if wait.what == "read":
            made, other, what = stream.written[number], stream.channel.writer, "data"
        else:
            made, other, what = stream.taken[number - 1] if number else 0, stream.channel.reader, "room"
    if other in found.tasks and before < made < cycle:
        way.append(Step(what, wait.name, 0, cycle - made - 1))
        return made, other or ""
    way.append(Step(what, wait.name, 0, cycle - before - 1))
    return before, task.instance.label


@dataclass
class Bound:
    """What the critical way is made of: cycles by instance, by line, by memory and by stream, and of each stream how often a place or a token of it was waited for.
    `turns` has of each line how often the way passes the state at it that it passes most."""

    tasks: "Counter[str]" = field(default_factory=Counter)
    lines: "Counter[int]" = field(default_factory=Counter)
    memories: "Counter[str]" = field(default_factory=Counter)
    streams: "Counter[str]" = field(default_factory=Counter)
    rooms: "Counter[str]" = field(default_factory=Counter)
    tokens: "Counter[str]" = field(default_factory=Counter)
    turns: "Counter[int]" = field(default_factory=Counter)

    @property
    def cycles(self) -> int:
        return sum(self.tasks.values()) + sum(self.memories.values()) + sum(self.streams.values())


def bound(way: List[Step]) -> Bound:
    """The sums of a critical way, each with the greatest part first."""
    found = Bound()
    passed: "Counter[Tuple[str, int]]" = Counter()
    for step in way:
        {"tick": found.tasks, "memory": found.memories}.get(step.what, found.streams)[step.name] += step.cycles
        if step.what == "tick":
            found.lines[step.line] += 1
            passed[step.name, step.state] += 1
            found.turns[step.line] = max(found.turns[step.line], passed[step.name, step.state])
        elif step.what != "memory":
            (found.rooms if step.what == "room" else found.tokens)[step.name] += 1
    for part in (found.tasks, found.memories, found.streams, found.rooms, found.tokens):
        greatest = part.most_common()
        part.clear()
        part.update(dict(greatest))
    found.lines = Counter(dict(found.lines.most_common()))
    return found


# ---- a run that stands still


def waiting_for(found: Profile) -> Dict[str, Tuple[Wait, Optional[str]]]:
    """Of each instance that waits in the last cycle, for what, and for which instance: the other end of the stream."""
    waits: Dict[str, Tuple[Wait, Optional[str]]] = {}
    for label, task in found.tasks.items():
        if task.statuses and task.statuses[-1] == CODES[WAITS]:
            wait = task.wait_at(task.states[-1])
            channel = found.streams[wait.name].channel if wait.what != "memory" else None
            other = None if channel is None else channel.writer if wait.what == "read" else channel.reader
            waits[label] = (wait, other)
    return waits


def circle(waits: Dict[str, Tuple[Wait, Optional[str]]]) -> List[str]:
    """Instances each of which waits for the next, and the last one for the first; none where there is no such circle."""
    return network.circle({label: other for label, (_, other) in waits.items()})
