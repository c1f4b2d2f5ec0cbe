"""A testbench in Verilog (IEEE 1364-2005) that checks a circuit by itself: what each stream carries and what each memory holds at the end, beside what `run` shows.

It is made for circuits of `tapa build`, whose ports and wires docs/CIRCUIT.md names, and for any simulator.
"""
from dataclasses import dataclass
from typing import List, Sequence, Tuple

from .. import tables
from ..host.data import Data
from ..host.report import Eot, Report
from ..language.network import Network

# How memories answer: within the cycle, a cycle later as a block RAM, in random cycles with noise in the others, or by the ready lists of the data.
WAITS = ("none", "late", "random", "data")
TEXTS = tables.texts("measure/testbench.texts")


@dataclass(frozen=True)
class Stream:
    """A stream that is looked at: the bits of a token with the mark of an end of transaction, the tokens that must come, and whether more may."""

    name: str
    bits: int
    tokens: List[int]
    may_go_on: bool


@dataclass(frozen=True)
class Memory:
    """A memory around the circuit: its first cells, the cells that it must hold at the end, and its ready list."""

    name: str
    bits: int
    first: List[int]
    last: List[int]
    ready: List[int]


@dataclass(frozen=True)
class Bench:
    """What a testbench is made of; `limit` is the last cycle that is simulated, and `is_done` says whether the run ends."""

    top: str
    scalars: List[Tuple[str, int, int]]
    streams: List[Stream]
    memories: List[Memory]
    is_done: bool
    limit: int


def made_of(network: Network, given: Data, report: Report, limit: int) -> Bench:
    """The bench of a run's data and its report, whose numbers are unsigned."""
    detached = {it.label: it.detached for it in network.instances}
    streams = []
    for channel in network.streams:
        bits = channel.kind.bits + 1
        tokens = [1 << (bits - 1) if isinstance(it, Eot) else it & ((1 << (bits - 1)) - 1) for it in report.streams.get(channel.name, [])]
        streams.append(Stream(channel.name, bits, tokens, report.end == "done" and detached.get(channel.writer or "", False)))
    memories = []
    for it in network.memories:
        first = [number & ((1 << it.kind.bits) - 1) for number in given.memories.get(it.name, [])]
        memories.append(Memory(it.name, it.kind.bits, first, report.memories.get(it.name, first), given.ready.get(it.name, [])))
    scalars = [(it.name, it.kind.bits, given.scalars.get(it.name, 0) & ((1 << it.kind.bits) - 1)) for it in network.scalars]
    return Bench(network.top, scalars, streams, memories, report.end == "done", limit)


def part(which: str, **values: object) -> str:
    """A part of the text, with these values."""
    return tables.filled(TEXTS[which], **values)


def vector(bits: int) -> str:
    return f"[{bits - 1}:0] " if bits > 1 else ""


def filled(name: str, bits: int, numbers: Sequence[int]) -> str:
    """A memory of the bench with these numbers."""
    cells = "".join(f"    {name}[{at}] = {bits}'d{number};\n" for at, number in enumerate(numbers))
    return f"  reg {vector(bits)}{name} [0:{max(1, len(numbers)) - 1}];\n" + (f"  initial begin\n{cells}  end\n" if numbers else "")


def memory_text(memory: Memory, waits: str, seed: int) -> str:
    """A memory around the circuit: its cells, when it is ready, and what it shows."""
    name, bits, size = memory.name, memory.bits, len(memory.first)
    index = f"m_{name}_addr[{max(1, (max(1, size) - 1).bit_length()) - 1}:0]"
    ready = memory.ready if waits == "data" else []
    given = {
        "name": name, "bits": bits, "size": size, "seed": seed, "vector": vector(bits), "high": bits - 1,
        "cell": f"is_in_{name} ? cells_{name}[{index}] : {bits}'d0" if size else f"{bits}'d0",
        "store": f"if (m_{name}_ack && m_{name}_we && is_in_{name}) cells_{name}[{index}] <= m_{name}_wdata;" if size else "",
        "ready": filled(f"ready_{name}", 1, ready) if ready else "", "is_ready": f" && (cycle > {len(ready)} || ready_{name}[cycle - 1])" if ready else "",
        "lists": filled(f"cells_{name}", bits, memory.first) + filled(f"last_{name}", bits, memory.last),
    }
    return part("memory", **given, answers=part(waits if waits in ("late", "random") else "listed", **given))


def stream_check(stream: Stream) -> str:
    """What is looked at of a stream in a cycle, before its end."""
    checks = ["token"] * bool(stream.tokens) + ["more"] * (not stream.may_go_on)
    return part("stream", name=stream.name, checks="".join(part(it, name=stream.name, count=len(stream.tokens)) for it in checks))


def clocked_text(bench: Bench) -> str:
    """What is looked at in each cycle, when the circuit is done, and again at the end of the simulation: eight cycles behind `done`, or at the first difference."""
    ends = [part("carried", name=it.name, count=len(it.tokens)) for it in bench.streams] + [part("cells", name=it.name, size=len(it.first)) for it in bench.memories if it.first]
    told = f"{len(bench.streams)} streams, {len(bench.memories)} memories"
    last = part("done" if bench.is_done else "stops", limit=bench.limit, ends="".join(ends), told=told)
    return "".join(map(stream_check, bench.streams)) + part("back") + last + part("end")


def limit_of(cycles: int, waits: str) -> int:
    """The most cycles of a circuit whose memories answer so, if it takes so many with memories that answer at once: an access to a late memory takes at most
    two cycles, and a random one is ready in every second cycle of many."""
    return {"late": 2 * cycles + 2, "random": 16 * cycles + 1000}.get(waits, cycles)


def text_of(bench: Bench, waits: str, command: str) -> str:
    """The text of a testbench, whose module is called `bench`; `command` is what made it, for its first line."""
    ports = ["clk", "rst", "done", *(f"v_{name}" for name, _, _ in bench.scalars)]
    ports += [f"m_{memory.name}_{end}" for memory in bench.memories for end in ("addr", "wdata", "we", "ack", "rdata")]
    return "".join([
        part("head", top=bench.top, command=command),
        *(f"  wire {vector(bits)}v_{name} = {bits}'d{number};\n" for name, bits, number in bench.scalars),
        *(memory_text(memory, waits, 0x9E3779B97F4A7C15 * seed % 2**64) for seed, memory in enumerate(bench.memories, 1)),
        *(f"  integer carried_{it.name};\n" + filled(f"tokens_{it.name}", it.bits, it.tokens) for it in bench.streams),
        part("begin", top=bench.top, ports=", ".join(f".{port}({port})" for port in ports), carried="".join(f"    carried_{it.name} = 0;\n" for it in bench.streams)),
        clocked_text(bench),
    ])
