"""Circuits in Icarus Verilog: a testbench of one, the report of what it shows, and where its dump differs from that of `tapa cosim --vcd`."""
from __future__ import annotations

import re
import subprocess
from typing import Any, Dict, Iterator, List, Mapping, Optional, Sequence, Tuple

from .. import tables
from ..host.dump import Dump
from ..host.faults import Fault

# A port: its direction, bits and name; and the groups of a data file by name.
Port = Tuple[str, int, str]
Groups = Mapping[str, Mapping[str, Any]]

PORT = re.compile(r"(input|output)\s*(?:\[\s*(\d+)\s*:\s*0\s*\])?\s*([\w$]+)")
TEXTS = tables.texts("measure/icarus.texts")
# The places of the testbench that have a text for each memory.
OF_MEMORIES = {"memories": "memory", "acks": "ack", "shown": "shown", "kept": "kept", "stores": "store"}
WIRE = re.compile(r"^\s*wire\s*(?:\[\s*(\d+)\s*:\s*0\s*\])?\s*([\w$]+)\s*;", re.M)
# What a testbench prints of a token, of a cell and at the end, and what Icarus Verilog prints by itself.
SHOWN, END = re.compile(r"(stream [\w$]+) (\w+) ([0-9]+)|(memory [\w$]+) (\w+)"), re.compile(r"(?:done|running)(?: [0-9]+)?")
OWN = re.compile(r"VCD .*|.*: \$finish called at .*")


def top_of(text: str) -> Tuple[str, List[Port], Dict[str, int]]:
    """The last module: its name, its ports as (direction, bits, name), and the bits of its wires by name."""
    modules = re.findall(r"\bmodule\s+([\w$]+)\s*\((.*?)\)\s*;(.*?)\bendmodule\b", text, re.S)
    if not modules:
        raise Fault("this is no circuit that `tapa build` wrote: it has no module")
    name, ports, body = modules[-1]
    return name, [(way, _bits(high), port) for way, high, port in PORT.findall(ports)], {wire: _bits(high) for high, wire in WIRE.findall(body)}


def _bits(high: str) -> int:
    if len(high) > 6:
        raise Fault(f"this is no circuit that `tapa build` wrote: a net has {high[:20]}.. bits")
    return int(high or 0) + 1


def missing(ports: List[Port], data: Groups, name: str) -> None:
    """Fault where a scalar or a memory of the circuit is not in the data, or has another shape there."""
    names = {port for _, _, port in ports}
    for _, _, port in ports:
        if port.endswith("_ack") and f"{port[:-3]}rdata" not in names:
            raise Fault(f"this is no circuit that `tapa build` wrote: it has a port {port} and none {port[:-3]}rdata")
        if port.startswith("v_") and not isinstance(data["scalars"].get(port[2:]), int):
            raise Fault(f"{name}: scalars has no {port[2:]}, a number, which the circuit takes")
        if port.endswith("_ack"):
            if not _are_numbers(data["memories"].get(port[2:-4])):
                raise Fault(f"{name}: memories has no {port[2:-4]}, a list of numbers, which the circuit takes")
            if not _are_numbers(data["waits"].get(port[2:-4], [])):
                raise Fault(f"{name}: {port[2:-4]} in waits is no list of numbers")


def _are_numbers(given: Any) -> bool:
    return isinstance(given, list) and all(isinstance(it, int) for it in given)


def bench(text: str, data: Groups, cycles: int, dump: Optional[str] = None) -> str:
    """The testbench of a circuit on these data, for at most so many cycles."""
    name, ports, wires = top_of(text)
    bits_of = {port: bits for _, bits, port in ports}
    values, cells, waits = (data.get(group, {}) for group in ("scalars", "memories", "waits"))
    memories: List[Dict[str, object]] = []
    for label in [port[2:-4] for port in bits_of if port.endswith("_ack")]:
        bits, ready = bits_of[f"m_{label}_rdata"], waits.get(label, [])
        first = [f"  cells_{label}[{at}] = {bits}'d{cell % 2**bits};\n" for at, cell in enumerate(cells[label])] + [f"  ready_{label}[{at}] = 1'd{bit};\n" for at, bit in enumerate(ready)]
        memories.append({"name": label, "bits": bits, "high": bits - 1, "size": len(cells[label]), "last": max(1, len(cells[label])) - 1, "count": len(ready), "waits": max(1, len(ready)), "cells": "".join(first)})
    streams = [wire[2:-4] for wire in wires if wire.startswith("s_") and wire.endswith("_din") and wires.get(wire[:-3] + "wr") == wires.get(wire[:-3] + "rdy") == 1]
    return tables.filled(
        TEXTS["bench"], name=name, cycles=cycles, ports=", ".join(f".{port}({port})" for _, _, port in ports),
        scalars="".join(f"wire [{bits - 1}:0] {port} = {bits}'d{int(values[port[2:]]) % 2**bits};\n" for _, bits, port in ports if port.startswith("v_")),
        dump=f'initial begin $dumpfile("{dump}"); $dumpvars(0, bench); end\n' if dump else "",
        streams=tables.repeated(TEXTS["stream"], [{"name": label, "bits": wires[f"s_{label}_din"]} for label in streams]),
        **{place: tables.repeated(TEXTS[part], memories) for place, part in OF_MEMORIES.items()},
    )


def token(number: str, bits: str) -> str:
    """A token as a report shows it; one of which a bit is unknown as Icarus Verilog does."""
    return "eot" if number.isdecimal() and int(number) >> (int(bits) - 1) else number


def simulated(made: str, paths: Sequence[str], name: str) -> List[str]:
    """What the simulation of these texts prints, whose program is made at a path. Fault where Icarus Verilog refuses a text, or where the simulation breaks off; `name` is that of the circuit."""
    compiled = subprocess.run(["iverilog", "-g2005", "-gno-xtypes", "-o", made, *paths], check=False)
    if compiled.returncode != 0:
        raise Fault(f"{name}: Icarus Verilog refuses the text or its testbench")
    said = subprocess.run(["vvp", "-n", made], capture_output=True, check=False)
    if said.returncode != 0:
        raise Fault(f"{name}: the simulation in Icarus Verilog ends with the status {said.returncode}")
    return [line for line in said.stdout.decode("utf-8", "replace").splitlines() if not OWN.fullmatch(line)]


def report(text: str, lines: List[str]) -> List[str]:
    """The lines of a report from what the testbench showed."""
    _, ports, wires = top_of(text)
    names = [f"stream {wire[2:-4]}" for wire in wires if wire.startswith("s_") and wire.endswith("_din") and wire[:-3] + "wr" in wires and wire[:-3] + "rdy" in wires]
    names += [f"memory {port[2:-4]}" for _, _, port in ports if port.endswith("_ack")]
    shown: Dict[str, List[str]] = {name: [] for name in names}
    for line in lines[:-1]:
        found = SHOWN.fullmatch(line)
        if not found or (found[1] or found[4]) not in shown:
            raise Fault(f"the simulation prints `{line[:60]}`, which its testbench does not: this is no circuit that `tapa build` wrote")
        shown[found[1] or found[4]].append(token(found[2], found[3]) if found[1] else found[5])
    if not lines or not END.fullmatch(lines[-1]):
        raise Fault("the simulation ends before its testbench does: this is no circuit that `tapa build` wrote")
    return [" ".join([f"{name}:", *shown[name]]) for name in names] + lines[-1:]


def differences(told: str, shown: str) -> Iterator[str]:
    """Where a dump of `tapa cosim --vcd` and one of the testbench differ: of each net of the top module the first cycle."""
    ours, theirs = Dump(told), Dump(shown)
    names = [name[len(ours.top) + 1:] for name in ours.nets if name.startswith(f"{ours.top}.") and "." not in name[len(ours.top) + 1:]]
    missed = next((name for name in names if not theirs.has(name)), None)
    if missed is not None:
        raise Fault(f"{told} is no dump of this circuit: the circuit has no net {missed}")
    found: Dict[str, str] = {}
    for (cycle, values), (_, others) in zip(ours.cycles(map(ours.name, names)), theirs.cycles(map(theirs.name, names))):
        for name in names:
            value, other = values[ours.name(name)], others[theirs.name(name)]
            if other is not None and value != other:
                found.setdefault(name, f"{name} in cycle {cycle}: {value}, and {other} in Icarus Verilog")
    yield from found.values()
