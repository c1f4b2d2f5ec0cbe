"""Follows each task's machine through a dump: at which state it stands in each cycle, whether it makes its tick there, and what its registers hold.

A dump of `tapa cosim --vcd` has the nets of the top module alone. A task reads no others, so its machine, run on what these nets show, goes through the circuit's own states.
That it does is checked in each cycle: what the machine takes, writes and stores must be what the dump shows.
"""
from __future__ import annotations

from typing import Dict, Iterator, List, Mapping, Optional, Tuple

from ..host.dump import Dump, Value
from ..language.kinds import Kind
from ..language.network import Instance, Network
from ..language.source import Source
from ..language.values import Evaluator, evaluator
from .code import State
from .states import MEMORY, READS, WRITES, Machine, machines

TICK, WAITS, ENDED, BAD = "tick", "waits", "ended", "bad token"


class NotOfThisSource(ValueError):
    """A dump that shows something else than the machines of the source do; the words say what, and in which cycle."""


class NoNetwork(ValueError):
    """A source whose instances do not have a stream or a memory for each of their parameters, which `tapa run` refuses."""


def check_network(source: Source, network: Network) -> None:
    """Raises NoNetwork where an instance has no stream or memory at a parameter, or shares an end of a stream with another one."""
    streams = {it.name: it for it in network.streams}
    memories = {it.name for it in network.memories}
    for instance in network.instances:
        for it in source.tasks[instance.task].parameters:
            bound = instance.bindings.get(it.name, "")
            channel = streams.get(bound)
            end = None if not channel else channel.writer if it.direction == "ostream" else channel.reader
            if bound not in memories if it.direction == "mmap" else it.direction != "scalar" and end != instance.label:
                raise NoNetwork(f"{source.path or 'the source'}: {instance.label} has no {'memory' if it.direction == 'mmap' else 'stream'} of its own at its parameter {it.name}: `tapa run` says what is wrong")


class Program:
    """A task's machine with its expressions as functions; all instances of a task share it."""

    def __init__(self, machine: Machine) -> None:
        self.machine = machine
        self.states = machine.states
        self.values: List[Optional[Evaluator]] = [evaluator(it.value) if it.value else None for it in machine.states]
        self.indices: List[Optional[Evaluator]] = [evaluator(it.index) if it.index else None for it in machine.states]


class Follower:
    """One instance in the current cycle.

    `at` is the number of its state and `status` one of TICK, WAITS, ENDED and BAD: whether it makes its tick, waits, has ended, or stands before a wrong token. `registers`
    and `arrays` are what they hold in this cycle.
    """

    def __init__(self, program: Program, instance: Instance, wires: "Wires") -> None:
        self.program, self.instance, self.machine = program, instance, program.machine
        parameters = self.machine.task.parameters
        self.streams = [_Stream(wires, instance.bindings[it.name], it.kind, it.direction == "ostream") for it in parameters if it.direction in ("istream", "ostream")]
        self.memories = [_Memory(wires, instance.bindings[it.name]) for it in parameters if it.direction == "mmap"]
        self.counter = next(it.number for it in self.machine.registers if it.role == "counter")
        self.registers: List[int] = []
        self.arrays: List[List[int]] = []
        self.at, self.status, self.has_ended = 0, WAITS, False
        # the token or cell that the current state is given, or the token that it writes
        self.given = 0

    @property
    def state(self) -> State:
        return self.program.states[self.at]

    def reset(self, scalars: List[int]) -> None:
        """As it is in the first cycle behind a reset: at its first state, with its scalar parameters."""
        self.at, self.has_ended = 0, False
        self.registers = scalars + [0] * (len(self.machine.registers) - len(scalars))
        self.arrays = [[0] * it.cells for it in self.machine.arrays]

    def look(self, values: Mapping[str, Value]) -> None:
        """Finds the status of this cycle from the values of its nets."""
        state = self.state
        self.status = ENDED if self.has_ended else TICK
        if state.act in READS:
            self._look_at_token(state, values)
        elif state.act in WRITES:
            stream = self.streams[state.subject or 0]
            self.given = stream.mark if state.act == "close" else self._value(self.at)
            self.status = TICK if values[stream.nets["rdy"]] else WAITS
        elif state.act in MEMORY:
            memory = self.memories[state.subject or 0]
            self.status = TICK if values[memory.nets["ack"]] else WAITS
            self.given = values[memory.nets["rdata"]] or 0

    def _look_at_token(self, state: State, values: Mapping[str, Value]) -> None:
        stream = self.streams[state.subject or 0]
        if not values[stream.nets["has"]]:
            self.status = WAITS
            return
        token = values[stream.nets["dout"]] or 0
        is_end = token >= stream.mark
        self.given = int(is_end) if state.act == "eot" else token
        if state.act != "eot" and is_end != (state.act == "open"):
            self.status = BAD

    def advance(self) -> None:
        """Goes on to the next cycle."""
        if self.status != TICK:
            return
        state, following = self.state, self.state.next
        if state.act == "test" and not self._value(self.at):
            following = state.otherwise
        elif state.act == "set":
            self._set(state)
        elif state.act == "clear":
            following = self._clear(state)
        elif state.act == "end":
            self.has_ended, following = True, self.at
        elif state.register is not None:
            self.registers[state.register] = self.given
        self.at = following

    def _set(self, state: State) -> None:
        value = self._value(self.at)
        if state.register is not None:
            self.registers[state.register] = value
            return
        array, index = self.arrays[state.subject or 0], self.index()
        if index < len(array):
            array[index] = value

    def _clear(self, state: State) -> int:
        """A tick of an array's declaration, which clears one cell, and the state that it leads to."""
        array, cell = self.arrays[state.subject or 0], self.registers[self.counter]
        array[cell] = 0
        is_last = cell + 1 == len(array)
        self.registers[self.counter] = 0 if is_last else cell + 1
        return state.next if is_last else self.at

    def _value(self, at: int) -> int:
        compute = self.program.values[at]
        return compute(self.registers, self.arrays) if compute else 0

    def index(self) -> int:
        """The index of the cell that the current state is about."""
        compute = self.program.indices[self.at]
        return compute(self.registers, self.arrays) if compute else 0

    def differs(self, values: Mapping[str, Value]) -> Optional[str]:
        """What the dump shows otherwise than this instance does, if anything."""
        state = self.state
        acting = state.subject if self.status != ENDED else None
        for number, stream in enumerate(self.streams):
            is_here = acting == number and state.act in (*WRITES, "read", "open")
            if stream.is_output:
                if values[stream.nets["wr"]] != (is_here and state.act in WRITES):
                    return f"whether it writes {stream.name}"
                if is_here and values[stream.nets["din"]] not in (self.given, None):
                    return f"what it writes to {stream.name}"
            elif values[stream.nets["take"]] != (is_here and self.status == TICK):
                return f"whether it takes a token of {stream.name}"
        return self._differs_at_memory(state, values)

    def _differs_at_memory(self, state: State, values: Mapping[str, Value]) -> Optional[str]:
        if state.act not in MEMORY or self.status == ENDED:
            return None
        memory = self.memories[state.subject or 0]
        if values[memory.nets["addr"]] != self.index():
            return f"the address in {memory.name}"
        if values[memory.nets["we"]] != (state.act == "store"):
            return f"whether it stores to {memory.name}"
        return f"what it stores to {memory.name}" if state.act == "store" and values[memory.nets["wdata"]] != self._value(self.at) else None


class Wires:
    """The nets of a dump that are looked at, each once."""

    def __init__(self, dump: Dump) -> None:
        self.dump = dump
        self.names: Dict[str, None] = {}

    def net(self, inside: str) -> str:
        """The name of a net of the top module. Raises NotOfThisSource where the dump has none."""
        name = self.dump.name(inside)
        if name not in self.dump.nets:
            raise NotOfThisSource(f"{self.dump.path} is no dump of this source's circuit: it has no net {inside}")
        self.names[name] = None
        return name


class _Stream:
    """A stream at a port: the nets of the port's end by their names, and the highest bit of a token, which says that it is the end of a transaction."""

    def __init__(self, wires: Wires, name: str, kind: Kind, is_output: bool) -> None:
        self.name, self.is_output, self.mark = name, is_output, 1 << kind.bits
        self.nets = {end: wires.net(f"s_{name}_{end}") for end in (("wr", "rdy", "din") if is_output else ("has", "take", "dout"))}


class _Memory:
    def __init__(self, wires: Wires, name: str) -> None:
        self.name = name
        self.nets = {end: wires.net(f"m_{name}_{end}") for end in ("ack", "rdata", "addr", "we", "wdata")}


class Run:
    """All instances of a network beside a dump of its circuit."""

    def __init__(self, source: Source, network: Network, dump: Dump) -> None:
        """Raises NotOfThisSource where the dump has other nets, and NoNetwork and NotUnderstood where the source is refused."""
        check_network(source, network)
        self.source, self.network, self.dump = source, network, dump
        self.wires = Wires(dump)
        self.machines = machines(source, [it.task for it in network.instances])
        programs = {name: Program(it) for name, it in self.machines.items()}
        self.followers = [Follower(programs[it.task], it, self.wires) for it in network.instances]
        self.scalars = [self._scalar_nets(number, it) for number, it in enumerate(self.followers)]
        self.ended = [self.wires.net(f"ended_{number}") for number in range(len(self.followers))]
        self.reset = self.wires.net("rst")

    def _scalar_nets(self, number: int, follower: Follower) -> List[str]:
        """The nets that have an instance's scalars: behind the last conversion on their way."""
        found = []
        for place in range(len(follower.machine.scalars)):
            last = 0
            while self.dump.has(f"b_{number}_{place}_{last + 1}"):
                last += 1
            found.append(self.wires.net(f"b_{number}_{place}_{last}"))
        return found

    def cycles(self, also: Tuple[str, ...] = ()) -> Iterator[Tuple[int, Mapping[str, Value]]]:
        """Each cycle with the values of the nets, while the followers show it; `also` are further nets to have values of. In a cycle with reset nothing runs.

        Raises NotOfThisSource at the first cycle in which the dump shows something else than a follower.
        """
        is_reset = True
        for cycle, values in self.dump.cycles([*self.wires.names, *also]):
            if values[self.reset] != 0:
                is_reset = True
                continue
            for number, follower in enumerate(self.followers):
                if is_reset:
                    follower.reset([values[net] or 0 for net in self.scalars[number]])
                else:
                    follower.advance()
                follower.look(values)
                other = follower.differs(values)
                if other or values[self.ended[number]] != (follower.status == ENDED):
                    raise NotOfThisSource(f"in cycle {cycle} {self.dump.path} shows of {follower.instance.label} otherwise than the source {other or 'whether it has ended'}")
            is_reset = False
            yield cycle, values
