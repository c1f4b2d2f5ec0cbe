#!/usr/bin/env python3
"""Runs circuits in Icarus Verilog with memories that are not those of `tapa cosim`, with resets in the middle of runs, and compares what they carry and leave with
what `tapa run` shows.

    tools/check_memories.py PROGRAM [SOURCE TOP DATA [--text F.v] [--memories ram|bus|random]] [--page F.md]

Each circuit (by default those of the examples that end) runs with the lines for a block RAM of docs/CIRCUIT.md around it, with those for a bus, which replies after one to
eight cycles, and with memories that are ready in random cycles and show random bits in the others. A bus and such a memory show random bits in reply to a store, too. Each
run is reset several times, for one cycle or more, at random moments, from registers that are unknown at first. The script also checks that no memory is ready or changes while
`rst` is 1, and that what a memory is asked for stays as it is until the memory is ready. With --text the circuit is read from a file, and not built from the source; an
address that comes only with `ack` is found with random memories alone, since it does not settle where `ack` comes with the address. With --page the lines are those of another
page. The random numbers are the same in each call. Needs `iverilog` and `vvp`.
"""
import functools
import os
import random
import re
import subprocess
import sys
import tempfile
from pathlib import Path

sys.dont_write_bytecode = True
from vechaqir import script, tables  # noqa: E402
from vechaqir.host import data as inputs, files  # noqa: E402
from vechaqir.measure.icarus import missing, report, simulated, top_of  # noqa: E402

ROOT = script.ROOT
PAGE = os.path.join(ROOT, "docs", "CIRCUIT.md")
LIMIT = 20_000
TEXTS = tables.texts("measure/memories.texts")


def page_lines(page, begin):
    """The lines of a page that begin so."""
    found = re.search(rf"^```verilog\n({re.escape(begin)}.*?)^```$", files.text(page), re.M | re.S)
    if not found:
        raise script.Usage(f"{page} has no lines of Verilog that begin with `{begin}`")
    return found[1]


def block_ram(page, name, bits, size):
    """The lines for a block RAM, for a memory of this name, bits and size."""
    lines = page_lines(page, "reg [31:0] cells ")
    high = max(1, (size - 1).bit_length()) - 1
    for old, new in (("[31:0] cell", f"[{bits - 1}:0] cell"), ("[0:1023]", f"[0:{max(1, size) - 1}]"), ("64'd1024", f"64'd{size}"), ("32'd0", f"{bits}'d0"), ("[9:0]", f"[{high}:0]"), ("m_a_", f"m_{name}_")):
        lines = lines.replace(old, new)
    return re.sub(r"\b(cells|cell_read|cell_asked|is_fresh|is_inside)\b", rf"\1_{name}", lines)


def bus(page, name, bits, size):
    """The lines for a bus, for a memory of this name, bits and size, and a bus that replies after one to eight cycles, to a store with noise.

    Their names are `bus_request`, `bus_we`, `bus_addr` and `bus_wdata`, which the bus takes, and `bus_reply` and `bus_rdata`, which it shows.
    """
    lines = page_lines(page, "reg is_asking;").replace("[31:0]", f"[{bits - 1}:0]").replace("m_a_", f"m_{name}_")
    lines = re.sub(r"\b(is_asking|is_answered|asked_we|asked_addr|asked_wdata|answer|bus_\w+)\b", rf"\1_{name}", lines)
    return tables.filled(TEXTS["bus"], lines=lines, name=name, bits=bits, high=bits - 1, size=size, most=max(1, size) - 1)


def random_memory(_page, name, bits, size):
    """A memory that is ready when `ready_NAME` says so, outside of reset, and shows noise where it is not ready or a value is stored."""
    return tables.filled(TEXTS["random"], name=name, bits=bits, high=bits - 1, size=size, most=max(1, size) - 1)


MEMORIES = {"ram": block_ram, "bus": bus, "random": random_memory}


def owners_of(text):
    """The instance that uses each memory, in the top of a circuit."""
    instances = re.findall(r"^\s*(t_[\w$]+)\s+([\w$]+)\s*\((.*?)\)\s*;", text, re.M | re.S)
    return {name: instance for _, instance, ports in instances for name in re.findall(r"\(\s*m_([\w$]+)_addr\s*\)", ports)}


def bench(text, data, memory, resets):
    """A testbench with memories by `memory`, that resets the circuit in these cycles, each with how many cycles the reset takes; the first one is in cycle 0. It looks at what
    the circuit asks of a memory, too: after a cycle in which the memory was not ready, a task that stays in its state asks for the same."""
    name, ports, wires = top_of(text)
    bits_of, owners, values = {port: bits for _, bits, port in ports}, owners_of(text), data.get("scalars", {})
    memories, cells = [], []
    for label in [port[2:-4] for port in bits_of if port.endswith("_ack")]:
        bits, held = bits_of[f"m_{label}_rdata"], data.get("memories", {})[label]
        own = [{"name": label, "bits": bits, "at": at, "cell": cell % 2**bits} for at, cell in enumerate(held)]
        memories.append({"name": label, "bits": bits, "high": bits - 1, "size": len(held), "owner": f"top.{owners.get(label)}", "cells": own})
        cells += own
    streams = [{"name": wire[2:-4], "bits": wires[wire]} for wire in wires if wire.startswith("s_") and wire.endswith("_din")]
    return tables.filled(
        TEXTS["bench"], name=name, last=resets[-1][0], limit=LIMIT, ports=", ".join(f".{port}({port})" for port in bits_of),
        scalars="".join(f"wire [{bits - 1}:0] {port} = {bits}'d{int(values[port[2:]]) % 2**bits};\n" for _, bits, port in ports if port.startswith("v_")),
        memories="".join(tables.filled(TEXTS["memory"], **it) + memory(it["name"], it["bits"], it["size"]) for it in memories),
        held=tables.repeated(TEXTS["held"], [it for it in memories if it["name"] in owners]),
        cells="".join(f"  cells_{it['name']}[{it['at']}] = {it['bits']}'d{it['cell']};\n" for it in cells),
        looks="".join(tables.filled(TEXTS["looks"], **it) + tables.repeated(TEXTS["look"], it["cells"]) for it in memories),
        resets=tables.repeated(TEXTS["reset"], [{"moment": moment, "end": moment + length} for moment, length in resets]),
        streams=tables.repeated(TEXTS["stream"], streams), shown=tables.repeated(TEXTS["shown"], memories),
    )


def shown_in_icarus(folder, text, data, memory, resets):
    """The report of a run from its last reset on, without the number of cycles, and what was bad."""
    paths = [os.path.join(folder, name) for name in ("design.v", "bench.v", "bench")]
    for path, lines in zip(paths, (text, bench(text, data, memory, resets))):
        Path(path).write_text(lines, encoding="utf-8")
    said = ["again", *simulated(paths[2], paths[:2], "the circuit")]
    bad = sorted({line for line in said if line.startswith("bad ")})
    return report(text, [line for line in said[len(said) - said[::-1].index("again"):] if not line.startswith("bad ")]), bad


def built(program, source, top, *words):
    """The circuit of a source."""
    words = ["build", source, top, *words]
    ran = subprocess.run([program, *words], cwd=ROOT, capture_output=True, check=False)
    if ran.returncode != 0:
        raise script.Told(ran.stderr.decode("utf-8", "replace").strip(), words)
    return ran.stdout.decode()


def is_same(got, wanted, may_go_on):
    """Whether two reports say the same; where detached tasks may carry more than is taken, a stream of the circuit may go on."""
    def agrees(line, begin):
        return line == begin or (may_go_on and begin.startswith("stream ") and line.startswith(begin))
    return len(got) == len(wanted) and all(map(agrees, got, wanted))


def check(program, source, top, file, chance, text=None, kinds=tuple(MEMORIES), page=PAGE):
    """What of a source, or of this text of its circuit, is otherwise in Icarus Verilog; nothing where its run does not end."""
    words = [program, "run", source, top, *([file] if file else []), "--steps", "100000"]
    ran = subprocess.run(words, cwd=ROOT, capture_output=True, check=False)
    if ran.returncode != 0:
        return None
    wanted = [line if not line.startswith("done ") else "done" for line in ran.stdout.decode().splitlines()]
    text = text or built(program, source, top)
    data = {}
    may_go_on = b"tapa::detach" in Path(ROOT, source).read_bytes()
    if file:
        read = inputs.read(os.path.join(ROOT, file))
        data = {"scalars": read.scalars, "memories": read.memories}
    missing(top_of(text)[1], {"scalars": {}, "memories": {}, "waits": {}, **data}, file or "{}")
    wrong = []
    with tempfile.TemporaryDirectory(prefix="tapa-memories-") as folder:
        for kind in kinds:
            for _ in range(3):
                moments = [0, *sorted(chance.sample(range(6, 90), 3))]
                resets = [(moment, chance.choice((1, 1, 2, 5))) for moment in moments]
                got, bad = shown_in_icarus(folder, text, data, functools.partial(MEMORIES[kind], page), resets)
                if bad or not is_same(got, wanted, may_go_on):
                    wrong.append(f"{source} with memories {kind}, reset at {resets}: {bad} {[line for line in got if line not in wanted]}")
    return wrong


def examples():
    """The sources of the examples with their top tasks and data."""
    for name in sorted(os.listdir(os.path.join(ROOT, "examples"))):
        if name.endswith(".cpp"):
            with open(os.path.join(ROOT, "examples", name), encoding="utf-8") as file:
                yield (*file.readline().split()[3:], None)[:3]


@script.word("program", metavar="PROGRAM", help="the built `tapa`")
@script.word("source", metavar="SRC", nargs="?", help="a source, in place of the examples that end")
@script.word("top", metavar="TOP", nargs="?", help="its top task")
@script.word("data", metavar="DATA", nargs="?", help="its data")
@script.word("--text", metavar="F.v", help="the circuit, in place of the one that is built of the source")
@script.word("--memories", choices=("all", *MEMORIES), default="all", help="all memories, or those of one kind alone")
@script.word("--page", metavar="F.md", default=PAGE, help="the page with the lines, in place of docs/CIRCUIT.md")
def main(asked):
    if asked.source and not asked.top or asked.text and not asked.source:
        raise script.Usage("a text needs its source, and a source its top task")
    text = None
    if asked.text:
        text = files.text(asked.text)
    program, chance = os.path.abspath(asked.program), random.Random(2001)
    kinds = tuple(MEMORIES) if asked.memories == "all" else (asked.memories,)
    tried, wrong = 0, []
    given = [os.path.abspath(it) if it else it for it in (asked.source, asked.data)]
    for source, top, data in [(given[0], asked.top, given[1])] if asked.source else examples():
        found = check(program, source, top, data, chance, text, kinds, asked.page)
        tried += found is not None
        wrong += found or []
    print("\n".join([*wrong, f"{tried} circuits, {len(wrong)} runs otherwise"]))
    return 1 if wrong or not tried else 0


if __name__ == "__main__":
    script.call(main)
