"""Where a circuit's cycles go: by task, by line and by stream, from a dump of the circuit and its source.

Cycles count from 1, the first behind reset. In each of them a task makes a tick, waits, stands before a wrong token, or has ended, so that its sums are the cycles of the run.
"""
from __future__ import annotations

from array import array
from collections import Counter
from dataclasses import dataclass, field
from typing import Dict, NamedTuple

from ..language.network import Channel, Instance
from ..machine.run import BAD, ENDED, TICK, WAITS, Follower, NotOfThisSource, Run
from ..machine.states import MEMORY, WRITES, Machine
from ..machine.untimed import Past, PastEnd

# How a status is kept in a history.
CODES = {TICK: 0, WAITS: 1, ENDED: 2, BAD: 3}


class Wait(NamedTuple):
    """What a task waits for: `what` is `read`, `write` or `memory`, `name` the flat name of the stream, or the memory of the top task."""

    what: str
    name: str

    def __str__(self) -> str:
        return f"for memory {self.name}" if self.what == "memory" else f"to {self.what} {self.name}"


@dataclass
class LineCost:
    """The cycles at one line of the source: in ticks, and in waits."""

    ticks: int = 0
    waits: int = 0

    @property
    def all(self) -> int:
        return self.ticks + self.waits


@dataclass
class TaskProfile:
    """The cycles of one instance. `states` and `statuses` have of each cycle, the first one at place 0, the number of the state and the code of the status."""

    instance: Instance
    machine: Machine
    ticks: int = 0
    waits: Dict[Wait, int] = field(default_factory=dict)
    ended: int = 0
    bad: int = 0
    lines: Dict[int, LineCost] = field(default_factory=dict)
    states: "array[int]" = field(default_factory=lambda: array("H"), repr=False)
    statuses: bytearray = field(default_factory=bytearray, repr=False)

    @property
    def waited(self) -> int:
        return sum(self.waits.values())

    def wait_at(self, state: int) -> Wait:
        """What an instance waits for at a state of its machine."""
        it = self.machine.states[state]
        what = "memory" if it.act in MEMORY else "write" if it.act in WRITES else "read"
        return Wait(what, self.instance.bindings[self.machine.subject(it)])


@dataclass
class StreamProfile:
    """How full a stream was, in tokens before each cycle, in its FIFO or on their way to it; and the cycles in which it held up its writer, being full, and its reader."""

    channel: Channel
    least: int = 0
    mean: float = 0.0
    most: int = 0
    holds_writer: int = 0
    holds_reader: int = 0
    fills: "array[int]" = field(default_factory=lambda: array("I"), repr=False)
    written: "array[int]" = field(default_factory=lambda: array("I"), repr=False)
    taken: "array[int]" = field(default_factory=lambda: array("I"), repr=False)

    @property
    def tokens(self) -> int:
        return len(self.written)


@dataclass
class Profile:
    """A run's cycles. `is_done` says whether all joined tasks have ended; `past_end` has the accesses past the end of a memory or an array, which
    whoever asks for the profile adds."""

    cycles: int
    is_done: bool
    tasks: Dict[str, TaskProfile]
    streams: Dict[str, StreamProfile]
    past_end: Dict[PastEnd, Past] = field(default_factory=dict)

    def lines(self) -> Dict[int, LineCost]:
        """The cycles of each line, of all instances together, in the order of the source."""
        found: Dict[int, LineCost] = {}
        for task in self.tasks.values():
            for line, cost in task.lines.items():
                whole = found.setdefault(line, LineCost())
                whole.ticks += cost.ticks
                whole.waits += cost.waits
        return dict(sorted(found.items()))

    def last_tick(self) -> int:
        """The last cycle in which some task made a tick; 0 where none did."""
        return max((task.statuses.rfind(0) + 1 for task in self.tasks.values()), default=0)


def profile(run: Run) -> Profile:
    """The profile of a run that is followed through its dump.

    Raises NotOfThisSource where the dump is that of another circuit.
    """
    tasks = {it.instance.label: TaskProfile(it.instance, it.machine) for it in run.followers}
    streams = {it.name: StreamProfile(it) for it in run.network.streams}
    cycles = 0
    for cycle, _ in run.cycles():
        cycles += 1
        for it in streams.values():
            if len(it.taken) > len(it.written):
                raise NotOfThisSource(f"before cycle {cycle} {run.dump.path} shows more tokens that are taken from {it.channel.name} than were written to it")
            it.fills.append(len(it.written) - len(it.taken))
        for follower, task in zip(run.followers, tasks.values()):
            _take(cycles, follower, task, streams)
    for task in tasks.values():
        _sum_up(task)
    for name, stream in streams.items():
        _sum_up_stream(stream, tasks, name)
    is_done = cycles > 0 and all(it.statuses[-1] == CODES[ENDED] for it in tasks.values() if not it.instance.detached)
    return Profile(cycles, is_done, tasks, streams)


def _take(cycle: int, follower: Follower, task: TaskProfile, streams: Dict[str, StreamProfile]) -> None:
    """Notes what an instance does in a cycle."""
    task.states.append(follower.at)
    task.statuses.append(CODES[follower.status])
    if follower.status != TICK:
        return
    act = follower.state.act
    if act in WRITES or act in ("read", "open"):
        stream = streams[follower.streams[follower.state.subject or 0].name]
        (stream.written if act in WRITES else stream.taken).append(cycle)


def _sum_up(task: TaskProfile) -> None:
    lines = [task.machine.place(it).line for it in task.machine.states]
    for (state, status), count in Counter(zip(task.states, task.statuses)).items():
        cost = task.lines.setdefault(lines[state], LineCost()) if status != CODES[ENDED] else LineCost()
        if status == CODES[TICK]:
            task.ticks += count
            cost.ticks += count
        elif status == CODES[WAITS]:
            wait = task.wait_at(state)
            task.waits[wait] = task.waits.get(wait, 0) + count
            cost.waits += count
        elif status == CODES[BAD]:
            task.bad += count
            cost.waits += count
        else:
            task.ended += count


def _sum_up_stream(stream: StreamProfile, tasks: Dict[str, TaskProfile], name: str) -> None:
    if stream.fills:
        stream.least, stream.most, stream.mean = min(stream.fills), max(stream.fills), sum(stream.fills) / len(stream.fills)
    writer, reader = tasks.get(stream.channel.writer or ""), tasks.get(stream.channel.reader or "")
    stream.holds_writer = writer.waits.get(Wait("write", name), 0) if writer else 0
    stream.holds_reader = reader.waits.get(Wait("read", name), 0) if reader else 0
