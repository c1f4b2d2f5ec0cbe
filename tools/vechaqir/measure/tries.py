"""Changes that would make a circuit faster, each tried: it is built with the change and simulated.

A greater depth is found in three steps: the circuit with FIFOs that are never full tells the fewest cycles that depths can give, and how full each FIFO then gets; each
change that is not needed for these cycles is taken back; and each that stays is made as small as it may be.
"""
from __future__ import annotations

import copy
import os
from pathlib import Path
from argparse import Namespace
from dataclasses import dataclass
from typing import Dict, List, Optional, Sequence

from ..host.data import Data, read, text_of
from ..host.dump import Dump
from ..host.faults import Told
from ..host.program import Program, find
from ..language.depths import Declared, declarations, with_depths
from ..language.source import Source, network, parse
from ..machine.run import Run
from ..machine.untimed import past_ends
from .profile import Profile, profile

# The greatest depth of a stream, and the most streams whose depths are made as small as they may be.
DEEPEST, MOST_STREAMS = 4096, 8
# The most cycles of a circuit that is to come to its end, and how many cycles a tick of a run that stops is given.
MOST_CYCLES, SLACK = 10_000_000, 4
# Seconds in which accesses past an end are looked for.
PAST_SECONDS = 60.0


class NotBuilt(Told):
    """A circuit that could not be built or simulated; the words are those of the program, with the names of the files that were given."""


@dataclass
class Change:
    """A change that was tried: what it is in words, the cycles of the circuit with it, and of a change of depths the depths by declaration."""

    text: str
    cycles: int
    depths: Dict[Declared, int]


class Bench:
    """Builds and simulates a source on some data, in a folder of its own; `words` are the source's name, the top task and the data's name where there are data, `options` are those of `build`, `limit`
    is the most cycles, 0 for as many as a run needs."""

    def __init__(self, program: Program, folder: str, words: Sequence[str], data: Data, options: Sequence[str] = (), limit: int = 0) -> None:
        self.program, self.folder, self.words, self.data, self.options, self.limit = program, folder, list(words), data, list(options), limit
        self.top = self.words[1]

    def put(self, name: str, text: bytes) -> str:
        path = os.path.join(self.folder, name)
        Path(path).write_bytes(text)
        return path

    def refused(self, err: bytes, words: Sequence[str]) -> NotBuilt:
        """What the program told of a file in the folder, with the name that was given."""
        text = err.decode("utf-8", "replace").strip()
        for name, given in (("source.cpp", self.words[0]), ("data.json", self.words[2] if len(self.words) > 2 else "{}")):
            text = text.replace(os.path.join(self.folder, name), given)
        return NotBuilt(text, words)

    def most_cycles(self, text: bytes) -> int:
        """The limit; without one, of a run that stops, the cycles in which its circuit comes to that too, since some tick is made in each but where all wait."""
        if self.limit:
            return self.limit
        given = self.put("run.json", text_of(self.data).encode())
        ran = self.program.call(["run", self.put("source.cpp", text), self.top, given])
        stopped = [line.split()[1] for line in ran.out.decode().splitlines()[-1:] if line.startswith("stopped ")]
        return SLACK * (int(stopped[0]) + sum(map(len, self.data.ready.values())) + 100) if stopped else MOST_CYCLES

    def build(self, text: bytes) -> str:
        """The path of the circuit's text. Raises NotBuilt."""
        made = self.program.call(["build", self.put("source.cpp", text), self.top, *self.options])
        if made.status != 0:
            raise self.refused(made.err, ["build", *self.words[:2], *self.options])
        return self.put("circuit.v", made.out)

    def cycles(self, text: bytes, data: Optional[Data] = None) -> Optional[int]:
        """The cycle in which the circuit of a source has done, or None where it has not within the limit. Raises NotBuilt."""
        given = self.put("data.json", text_of(data or self.data).encode())
        said = self.program.call(["cosim", self.build(text), given, "--cycles", str(self.most_cycles(text))])
        last = said.out.decode().splitlines()[-1:] or [""]
        return int(last[0].split()[1]) if last[0].startswith("done ") else None

    def profile(self, text: bytes) -> Profile:
        """The profile of a source's circuit. Raises NotBuilt."""
        given = self.put("data.json", text_of(self.data).encode())
        said = self.program.call(["cosim", self.build(text), given, "--vcd", "--cycles", str(self.most_cycles(text))])
        if said.status not in (0, 7):
            raise self.refused(said.err, ["run", *self.words])
        source = parse(text)
        net = network(source, self.top)
        found = profile(Run(source, net, Dump(self.put("dump.vcd", said.out))))
        found.past_end = past_ends(source, net, self.data.scalars, self.data.memories, PAST_SECONDS)
        return found


def words_of(asked: Namespace) -> List[str]:
    """The source, the top task and the data of a script's words, as those of a command."""
    return [asked.source, asked.top] + ([asked.data] if asked.data else [])


def bench_of(asked: Namespace, folder: str, device: Optional[str] = None, plan: Optional[str] = None) -> Bench:
    """The bench of a script's words; the circuit is for a device where one is given."""
    options = [it for name, value in (("--device", device), ("--plan", plan)) if value for it in (name, value)]
    return Bench(find(), folder, words_of(asked), read(asked.data) if asked.data else Data(), options, asked.cycles)


# ---- depths


def _with(depths: Dict[Declared, int], name: Declared, depth: Optional[int]) -> Dict[Declared, int]:
    """Other depths: one more, or without this one where `depth` is None."""
    changed = {it: number for it, number in depths.items() if it != name}
    return changed if depth is None else {**changed, name: depth}


def deeper(bench: Bench, source: Source, found: Profile) -> Optional[Change]:
    """The least depths with which the circuit takes the fewest cycles that any depths give, or ends where it stands still; None where depths change nothing. Raises NotBuilt."""
    names = declarations(source, bench.top)
    full = {names[name] for name, it in found.streams.items() if it.holds_writer}
    own = {names[name]: it.channel.depth or 2 for name, it in found.streams.items()}
    if not full:
        return None
    free = bench.profile(with_depths(source, {name: DEEPEST for name in own}))
    if not free.is_done or found.is_done and free.cycles >= found.cycles:
        return None
    needed: Dict[Declared, int] = {}
    for name, it in free.streams.items():
        # a FIFO that holds as many tokens as its depth is full in that cycle, so one place more is never waited for
        needed[names[name]] = min(max(needed.get(names[name], 0), it.most + 1), DEEPEST)
    depths = {name: depth for name, depth in needed.items() if depth > own[name]}
    for declared in sorted(depths, key=lambda it: -depths[it])[:MOST_STREAMS]:
        depths = _smallest(bench, source, depths, declared, own[declared], free.cycles)
    return _depths_changed(source, depths, bench.cycles(with_depths(source, depths)) or 0)


def _smallest(bench: Bench, source: Source, depths: Dict[Declared, int], name: Declared, own: int, cycles: int) -> Dict[Declared, int]:
    """The depths with that of one stream as small as these cycles allow, its own one if it may be that."""
    low, high = own, depths[name]
    while low < high:
        middle = (low + high) // 2
        if bench.cycles(with_depths(source, _with(depths, name, middle if middle > own else None))) == cycles:
            high = middle
        else:
            low = middle + 1
    return _with(depths, name, high if high > own else None)


def _depths_changed(source: Source, depths: Dict[Declared, int], cycles: int) -> Change:
    words = []
    for name, depth in depths.items():
        stream = next(it for it in source.tasks[name.task].streams if it.name == name.name)
        words.append(f"depth of {name.name} (line {stream.place.line}) {stream.depth} -> {depth}")
    return Change(", ".join(words), cycles, depths)


# ---- memories and slow tasks


def ready_memories(bench: Bench, source: Source, found: Profile) -> List[Change]:
    """For each memory for which some task waited: the cycles if it were ready in each cycle. Raises NotBuilt."""
    late = {wait.name for task in found.tasks.values() for wait in task.waits if wait.what == "memory"}
    changes = []
    for name in sorted(late):
        data = copy.deepcopy(bench.data)
        data.ready.pop(name, None)
        cycles = bench.cycles(source.text, data)
        if cycles is not None and found.is_done:
            changes.append(Change(f"memory {name} ready in each cycle", cycles, {}))
    return changes


def changes(bench: Bench, source: Source, found: Profile) -> List[Change]:
    """All changes that are tried. Raises NotBuilt."""
    depths = deeper(bench, source, found)
    return ([depths] if depths else []) + ready_memories(bench, source, found)
