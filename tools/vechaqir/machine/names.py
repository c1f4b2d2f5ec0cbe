"""The way back from a circuit to its source: which variable a register is, which line a state is, which stream and instance a channel is (docs/CIRCUIT.md, "A task's nets")."""
from __future__ import annotations

import os
from typing import Any, Dict, Iterator, List, Tuple

from ..host.columns import columns
from ..host.dump import Dump
from ..language.network import Network
from ..language.source import Source
from .code import State
from .states import Machine, machines

# A table as JSON has it.
Table = Dict[str, Any]


def table(source: Source, network: Network) -> Table:
    """All names of a circuit: `modules` with their registers, arrays, ports and states, `instances` and `channels` of the top module. Lines and columns count from 1.

    Raises NotUnderstood where a task's text is none of the language.
    """
    found = machines(source, [it.task for it in network.instances])
    return {
        "top": network.top,
        "module": f"t_{network.top}",
        "modules": [_module(it, [one.label for one in network.instances if one.task == name]) for name, it in found.items()],
        "instances": [
            {"label": it.label, "instance": f"t_{it.label}", "module": f"t_{it.task}", "ended": f"ended_{number}", "detached": it.detached, "bindings": it.bindings}
            for number, it in enumerate(network.instances)
        ],
        "channels": [
            {"stream": it.name, "instance": f"c_{it.name}", "nets": f"s_{it.name}_*", "kind": it.kind.word, "depth": it.depth, "writer": it.writer, "reader": it.reader}
            for it in network.streams
        ],
    }


def _module(machine: Machine, labels: List[str]) -> Table:
    return {
        "module": f"t_{machine.task.name}",
        "task": machine.task.name,
        "line": machine.task.place.line,
        "instances": labels,
        "registers": [
            {"net": f"x_{it.number}", "name": it.name, "kind": it.kind.word, "signed": it.kind.signed, "role": it.role, "line": it.place.line, "column": it.place.column} for it in machine.registers
        ],
        "arrays": [
            {"net": f"a_{it.number}", "name": it.name, "kind": it.kind.word, "signed": it.kind.signed, "cells": it.cells, "line": it.place.line, "column": it.place.column} for it in machine.arrays
        ],
        "ports": list(_ports(machine)),
        "states": [_state(machine, number, it) for number, it in enumerate(machine.states)],
    }


def _ports(machine: Machine) -> Iterator[Table]:
    """The parameters of a task with the ports that they are."""
    numbers = {"stream": 0, "mmap": 0, "scalar": 0}
    ports = {"istream": "has_{0} dout_{0} take_{0}", "ostream": "rdy_{0} wr_{0} din_{0}", "mmap": "addr_{0} rdata_{0} wdata_{0} we_{0} ack_{0}", "scalar": "v_{0}"}
    for it in machine.task.parameters:
        counted = "stream" if it.direction in ("istream", "ostream") else it.direction
        yield {"name": it.name, "direction": it.direction, "kind": it.kind.word, "nets": ports[it.direction].format(numbers[counted])}
        numbers[counted] += 1


def _state(machine: Machine, number: int, state: State) -> Table:
    place = machine.place(state)
    following = [] if state.act == "end" else [state.next, state.otherwise] if state.act == "test" else [state.next]
    register = f"x_{state.register}" if state.register is not None else None
    return {"state": number, "act": state.act, "of": machine.subject(state), "text": machine.text(state), "sets": register, "next": following, "line": place.line, "column": place.column}


# ---- as text


def text(found: Table) -> Iterator[str]:
    """The lines of a table for people."""
    for module in found["modules"]:
        yield f"module {module['module']}: task {module['task']}, line {module['line']}, instances {' '.join(module['instances'])}"
        yield from columns(
            [(it["net"], it["name"] or ("(clears arrays)" if module["arrays"] else "(no array to clear)"), it["kind"], it["role"], "" if it["role"] == "counter" else f"{it['line']}:{it['column']}") for it in module["registers"]]
            + [(it["net"], it["name"], f"{it['kind']}[{it['cells']}]", "array", f"{it['line']}:{it['column']}") for it in module["arrays"]]
            + [(it["nets"], it["name"], it["kind"], it["direction"], "") for it in module["ports"]],
            "  "
        )
        yield from columns([(f"state {it['state']}", f"{it['line']}:{it['column']}", _says(it), "-> " + " or ".join(map(str, it["next"])) if it["next"] else "") for it in module["states"]], "  ")
        yield ""
    yield f"module {found['module']}: the top"
    yield from columns([(it["instance"], it["module"], it["ended"] + (", detached" if it["detached"] else ""), " ".join(f"{a}={b}" for a, b in it["bindings"].items())) for it in found["instances"]], "  ")
    yield from columns([(it["instance"], it["nets"], f"{it['kind']}, depth {it['depth']}", f"{it['writer']} -> {it['reader']}") for it in found["channels"]], "  ")


def _says(state: Table) -> str:
    """A state in words: its act, and what it is written as."""
    return f"{state['act']} {state['of']}".strip() + (f": {state['text']}" if state["act"] != "end" else "")


# ---- for GTKWave

# Flags of a trace in a GTKWave save file: right-justified in binary, hexadecimal and decimal, signed; translated by a file; a comment.
BINARY, DECIMAL, SIGNED, TRANSLATED, COMMENT = 0x28, 0x24, 0x420, 0x2024, 0x200


def translations(found: Table) -> Iterator[Tuple[str, str]]:
    """For each task's module the name and the text of a translate file: from numbers of states to acts and lines."""
    for module in found["modules"]:
        lines = [f"{it['state']} {it['line']}: {it['act']} {it['of']}".rstrip() for it in module["states"]]
        yield module["module"], "".join(f"{line}\n" for line in lines)


def save_file(found: Table, dump: Dump, folder: str, stem: str) -> Iterator[str]:
    """The lines of a GTKWave save file for a dump: streams, and each instance with its line and its variables by name, where the dump has them. `stem` is what the
    names of the translate files begin with, in the folder."""
    kinds = {it["module"]: it for it in found["modules"]}
    yield f'[dumpfile] "{os.path.abspath(dump.path)}"'
    yield "[timestart] 0"
    for channel in found["channels"]:
        nets = [f"s_{channel['stream']}_{end}" for end in ("wr", "rdy", "has", "take", "din")]
        yield from _group(f"stream {channel['stream']}: {channel['writer']} to {channel['reader']}", [(net, net, BINARY if net[-3:] != "din" else DECIMAL, "") for net in nets], dump)
    for instance in found["instances"]:
        module, label = kinds[instance["module"]], instance["label"]
        rows = [(f"t_{label}.state", "line", TRANSLATED, os.path.join(folder, f"{stem}.{module['module']}.states"))]
        rows += [(f"t_{label}.{it['net']}", it["name"], SIGNED if it["signed"] else DECIMAL, "") for it in module["registers"] if it["role"] != "counter"]
        yield from _group(f"{label} ({module['task']})", [*rows, (instance["ended"], "ended", BINARY, "")], dump)


def _group(title: str, rows: List[Tuple[str, str, int, str]], dump: Dump) -> Iterator[str]:
    """A comment, and below it the nets of these rows that the dump has: each its name in the top module, what it is called, its flags, and its translate file."""
    there = [row for row in rows if dump.has(row[0])]
    if not there:
        return
    yield f"@{COMMENT:x}"
    yield f"-{title}"
    for net, alias, flags, states in there:
        width = dump.nets[dump.name(net)].width
        yield f"@{flags:x}"
        if states:
            yield f"^1 {os.path.abspath(states)}"
        yield f"+{{{alias}}} {dump.name(net)}" + (f"[{width - 1}:0]" if width > 1 else "")
