#!/usr/bin/env python3
"""Measures a built `tapa` on large inputs, and prints the rows of docs/FIGURES.md, "The program".

    tests/measure/figures.py PROGRAM

Each input is made here. Seconds are processor seconds of one call, megabytes the most that it held.
"""
import itertools
import json
import os
import random
import sys
import tempfile
from pathlib import Path

sys.dont_write_bytecode = True
sys.path.insert(0, os.path.dirname(os.path.dirname(os.path.abspath(__file__))))
from runner.made.programs import chain, device, filled, name, network  # noqa: E402
from runner.made.shapes import ORDERS, PLACES, SHAPES, shaped, slots_of  # noqa: E402
from runner.timed import timed  # noqa: E402
from vechaqir import script  # noqa: E402


TOP = "void F() {} void T() { tapa::task().invoke(F); }\n"


def memories():
    """A program with sixteen memories, and data that fill them."""
    names = "abcdefghijklmnop"
    parameters = ", ".join(f"tapa::mmap<uint64_t> {it}" for it in names)
    source = f"void M(tapa::mmap<uint64_t> m) {{}} void T({parameters}) {{ tapa::task(){''.join(f'.invoke(M, {it})' for it in names)}; }}"
    cells = ",".join(["1234567890123456789012345678901"[:19].rjust(30)] * 65_536)
    return source, '{"memories":{' + ",".join(f'"{it}":[{cells}]' for it in names) + "}}"


def uses(constants=7_900):
    """Constants, and constants whose values name them again and again."""
    head = "const int a=1;" + "".join(f"const int {name(number)}=1;" for number in range(constants))
    return filled(head, lambda number: f"const int z{number}=a" + "+a" * 999 + ";", TOP)


def many():
    """As many instances and streams as may be, and leaf tasks besides."""
    head = "void L(tapa::istream<int>& a, tapa::ostream<int>& b, tapa::istream<int>& c, tapa::ostream<int>& d) {}\n"
    chain_of = "".join(f".invoke(L,{name(2 * at)},{name(2 * at)},{name(2 * at + 1)},{name(2 * at + 1)})" for at in range(512))
    streams = "tapa::stream<int> " + ",".join(name(at) for at in range(1_024)) + ";"
    top = f"void T() {{ {streams} tapa::task(){chain_of}; }}\n"
    return filled(head, lambda number: f"void {name(number)}(){{int x=1;if(x){{x=x+1;}}}}", top)


def readers(instances=448, parameters=1_000):
    """As many streams as may be, all but one of them legal, and one that a task reads at many parameters, in many instances."""
    wide = "void L(" + ",".join(f"tapa::istream<int>& p{at}" for at in range(parameters)) + ") {}\n"
    upper = f"void U(tapa::istream<int>& q) {{ tapa::task().invoke(L{',q' * parameters}); }}\n"
    ends = [f"tapa::istream<int>& i{at},tapa::ostream<int>& o{at}" for at in range(16)]
    both = f"void B({','.join(ends)}) {{}}\n"
    streams = [name(at) for at in range(1_023)]
    invoked = []
    for first in range(0, 1_023, 16):
        own = [it for it in streams[first : first + 16] for _ in "io"]
        invoked.append(f".invoke(B,{','.join([*own, 's', 's'])})" if len(own) == 30 else f".invoke(B,{','.join(own)})")
    top = f"void T() {{ tapa::stream<int> {','.join(streams)},s; tapa::task(){''.join(invoked)}{'.invoke(U,s)' * instances}; }}\n"
    return wide + upper + both + top


def plans():
    """Devices and graphs for `plan`, the same as `inputs`."""
    some = random.Random(7)
    kinds = ["bool", "uint8_t", "int", "uint64_t"]
    pairs = list(itertools.combinations(range(22), 2))
    graphs = {
        "a chain": [(at, at + 1, "int") for at in range(21)],
        "60 streams at random": [(*some.choice(pairs), some.choice(kinds)) for _ in range(60)],
        "all to all, 231 streams": [(*pair, "int") for pair in pairs],
    }
    for what, streams in graphs.items():
        for shape, capacity in (("tight", 130), ("wide", 1_000)):
            uses = [some.randint(8, 14) for _ in range(22)]
            yield f"22 groups on 2 slots, {what}, {shape}, exact", network(22, streams), device(2, 1, capacity, uses), ["--plan", "exact"], (0, 4)
    alike = [10] * 22
    yield "22 groups alike on 2 slots, only the last two have a stream, exact", network(22, [(20, 21, "int")]), device(2, 1, 120, alike), ["--plan", "exact"], (0,)
    yield "22 groups alike on 2 slots for 20, a chain, no plan, exact", network(22, graphs["a chain"]), device(2, 1, 109, alike), ["--plan", "exact"], (4,)
    apart = random.Random(2)
    for count in (30, 60, 120, 200):
        wide = [(*apart.choice(pairs), apart.choice(kinds)) for _ in range(count)]
        for capacity in (10, 30, 100):
            yield f"22 groups alike on 8 by 4 slots for {capacity // 10}, {count} streams at random, split", network(22, wide), device(8, 4, capacity, alike), ["--plan", "split"], (0, 4)
    streams = [(at, at + 1, "int") for at in range(511)]
    pins = {f"T{task}${task}": [task % 4, 0] for task in range(10, 512)}
    given = device(4, 1, 100_000, [10] * 512, pins=pins)
    yield "10 free groups before 502 pinned ones on 4 slots, exact", network(512, streams), given, ["--plan", "exact"], (0,)
    ladder = [(at, at + 2, "int") for at in range(510)] + [(at, at + 1, "uint8_t") for at in range(511)]
    yield "512 groups and 1,021 streams, two rails with rungs, on 4 by 2 slots, fit, balanced", network(512, ladder), device(4, 2, 700, [10] * 512), [], (0,)
    scattered = [tuple(sorted(some.sample(range(512), 2))) + (some.choice(kinds),) for _ in range(1_024)]
    yield "512 groups and 1,024 streams at random on 4 by 2 slots, fit, balanced", network(512, scattered), device(4, 2, 700, [10] * 512), [], (0,)
    blanks = device(1, 1, 100, [1])
    yield "a device file of 33,554,432 bytes, blanks", network(1, []), blanks.ljust(33_554_432), [], (0,)
    keys = ",".join(f'"k{at}":1' for at in range(2_500_000))
    yield "a device file of 33 MB, 2,500,000 unknown keys, refused with J2", network(1, []), blanks[:-1] + "," + keys + "}", [], (3,)


def inputs():
    """Each measurement: what it is, its source, its data, further words, and the status that is wanted."""
    yield "a chain of ten tasks that pass 1,000,000 tokens by streams of depth 16", chain(10, 1_000_000), None, ["--steps", "1000000000"], 0
    source, data = memories()
    yield f"data of {len(data) / 1e6:.1f} MB: 1,048,576 cells in 16 memories", source, data, [], 0
    source, count = filled("", lambda number: f"const int {name(number)}=1;", TOP)
    yield f"a source of 262,144 bytes, {count:,} constants", source, None, [], 0
    source, count = uses()
    yield f"a source of 262,144 bytes, 7,901 constants and {1_000 * count:,} uses", source, None, [], 0
    source, count = filled("", lambda number: f"void {name(number)}(){{}}", TOP)
    yield f"a source of 262,144 bytes, {count:,} tasks", source, None, [], 0
    source, count = many()
    yield f"a source of 262,144 bytes, 512 instances, 1,024 streams, {count:,} more leaf tasks", source, None, [], 0
    source = readers()
    yield f"a source of {len(source):,} bytes, 1,023 legal streams and one that 448 instances read at 1,000 parameters each, refused with C5", source, None, [], 1


def pairs(tasks, tokens):
    """Tasks that pass so many tokens on, one to the next, along two streams."""
    ends = [("q", "r", "tapa::ostream<int>& q, tapa::ostream<int>& r", "q << i; r << i; "), ("p", "o", "tapa::istream<int>& p, tapa::istream<int>& o", "p.read(); o.read(); ")]
    both = f"{ends[1][2]}, {ends[0][2]}"
    turn = f"for (int i = 0; i < {tokens}; ++i) {{{{ {{}} }}}}"
    first = f"void P({ends[0][2]}) {{ {turn.format(ends[0][3])} }}\n"
    middle = f"void M({both}) {{ {turn.format('q << p.read(); r << o.read(); ')} }}\n"
    last = f"void C({ends[1][2]}) {{ {turn.format(ends[1][3])} }}\n"
    streams = "".join(f"tapa::stream<int> a{number}; tapa::stream<int> b{number}; " for number in range(tasks - 1))
    middles = "".join(f".invoke(M, a{number}, b{number}, a{number + 1}, b{number + 1})" for number in range(tasks - 2))
    chained = f".invoke(P, a0, b0){middles}.invoke(C, a{tasks - 2}, b{tasks - 2})"
    return f"{first}{middle}{last}void T() {{ {streams}tapa::task(){chained}; }}\n"


def writes(count):
    """A task of one state for each write, and one that reads them."""
    body = "".join(f"q << {number}; " for number in range(count))
    last = f"void C(tapa::istream<int>& q) {{ for (int i = 0; i < {count}; ++i) q.read(); }}\n"
    return f"void P(tapa::ostream<int>& q) {{ {body}}}\n{last}void T() {{ tapa::stream<int> q; tapa::task().invoke(P, q).invoke(C, q); }}\n"


def circuits():
    """What is built: what it is, and its source."""
    yield "512 tasks that pass tokens on along 1,022 streams", pairs(512, 100)
    yield "a task of 4,080 writes, with a state for each", writes(4080)


def pipelines():
    """Circuits for a device: what they are, the source and the device."""
    slots = device(8, 4, 16, [])
    uses = {task: {"LUT": 1} for task in "PMC"}
    yield "512 tasks that pass tokens on along 1,022 streams, on 8 by 4 slots", pairs(512, 100), json.dumps({**json.loads(slots), "tasks": uses})
    for shape in SHAPES:
        what, source, given = max(balances(shape), key=lambda case: len(case[1]))
        yield f"512 groups, {what}, on 8 by 4 slots", source, given


def commands():
    """All of them, each behind its command; made one by one, since a child begins with what its parent holds."""
    for *case, status in inputs():
        yield "run", *case, (status,)
    yield from (("plan", *case) for case in plans())
    for what, source in circuits():
        yield "build", f"the circuit of {what}", source, None, [], (0,)
    yield from (("build", f"the circuit of {what}", source, given, ["--device", "d.json"], (0,)) for what, source, given in pipelines())


def balances(shape):
    """The plans of a shape at its largest size, each with its name: each order of the streams, and each way to pin the tasks."""
    for order, place in itertools.product(ORDERS, PLACES):
        some = random.Random(f"{shape} {order} {place}")
        streams = [(*pair, some.choice(["bool", "uint8_t", "int", "uint64_t"])) for pair in shaped(shape, order, 512)]
        pins = {f"T{task}${task}": list(divmod(slot, 4)) for task, slot in enumerate(slots_of(place, 512))}
        levels = {"version": 2, "levels_rows": [16] * 7, "levels_cols": [16] * 3, "forbidden": []}
        what = f"{shape}, {len(streams)} streams {order}, tasks {place}"
        yield what, network(512, streams), device(8, 4, 10_000, [1] * 512, pins=pins, **levels)


def measured(program, folder, verb, source, data, words):
    for file, text in (("r.cpp", source), ("d.json", data)):
        if text is not None:
            Path(folder, file).write_text(text, encoding="utf-8")
    given = ["d.json"] if data is not None and "--device" not in words else []
    took = timed([program, verb, "r.cpp", "T", *given, *words], folder)
    return took.status, took.err, took.seconds, took.megabytes


def slowest(program, folder, shape):
    """The slowest balance of a shape, as a row, and the worst status of all of them."""
    runs = [(*measured(program, folder, "plan", source, data, []), what) for what, source, data in balances(shape)]
    seconds, megabytes, what = max((run[2:] for run in runs), key=lambda run: run[0])
    worst = max(run[0] for run in runs)
    row = f"| 512 groups, {what}: the slowest of {len(runs)} | {seconds:.2f} s | {megabytes:.0f} MB |"
    return row + (f" status {worst}: {[run[1][:200] for run in runs if run[0]]}" if worst else ""), worst


@script.words(*script.PROGRAM)
def main(asked):
    print("| what | time | memory |\n|---|---|---|")
    worst = 0
    with tempfile.TemporaryDirectory() as folder:
        for verb, what, source, data, more, wanted in commands():
            status, err, seconds, megabytes = measured(asked.program, folder, verb, source, data, more)
            differs = status not in wanted
            worst = max(worst, status if differs else 0)
            print(f"| {what} | {seconds:.2f} s | {megabytes:.0f} MB |" + (f" status {status}: {err[:200].strip()}" if differs else ""), flush=True)
        for shape in SHAPES:
            row, status = slowest(asked.program, folder, shape)
            worst = max(worst, status)
            print(row, flush=True)
    return worst


if __name__ == "__main__":
    script.call(main)
