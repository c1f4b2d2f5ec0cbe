#!/usr/bin/env python3
"""Measures how fast a built `tapa` simulates circuits beside Icarus Verilog and, where it is there, Verilator, and prints the rows of docs/FIGURES.md.

    tests/measure/cosim_speed.py PROGRAM [--median N] [--only WORD] [--no-verilator] [--g++-O3]
    tests/measure/cosim_speed.py PROGRAM --counted [--only WORD]

The circuits are those of the examples, with loops and data so much longer that the start of a program counts for little; a row of 36 busy tasks; a chain of 512 tasks of which
one passes a token on; and those of tests/measure/cosim_speed, each a program of a usual kind, with arrays and memories in its tasks and twenty to sixty states. All simulators run
the same text on the same data, until it is done or for so many cycles: examples that stop go on for a while. Seconds are processor seconds, the best of three calls or the
median of N; the simulators take turns, so that a slow minute of the machine strikes them alike. Icarus's are those of `vvp` alone, and Verilator's those of the program that
`verilator --binary -O3` makes, both with the testbench of tools/icarus.py. Verilator has g++ compile that program with -Os; with --g++-O3 it is -O3, which makes a faster one.
The last rows tell the geometric means of the quotients, the least and the most of them, and the means of the circuits that wait for most of their time and of the others.

With --counted nothing is timed: `valgrind --tool=callgrind` counts the instructions that `cosim` takes, for two numbers of cycles, and what is told is the difference for a cycle,
which no other work on the machine disturbs.
"""
import glob
import json
import os
import random
import re
import shutil
import statistics
import subprocess
import sys
import tempfile
from pathlib import Path

sys.dont_write_bytecode = True
HERE = os.path.dirname(os.path.abspath(__file__))
sys.path.insert(0, os.path.dirname(HERE))
from runner.timed import by_turns, instructions, timed  # noqa: E402
from runner.trial import first_words, read, sources  # noqa: E402
from vechaqir import script  # noqa: E402
from vechaqir.measure import icarus  # noqa: E402

TIMES, CELLS, CYCLES = 500, 60_000, 200_000
FEWER = {"jacobi": 4, "page_rank": 20, "stencil": 20, "stencil_2d": 20}  # their constants are sizes of arrays, which have limits
COUNTED = (300, 1_300)
OPTIMISED = ("-MAKEFLAGS", "OPT_FAST=-O3 OPT_GLOBAL=-O3")
ONE_PASSES = "512 tasks of which one passes a token"
WAITING = ("bad_token", "feedback", "too_shallow", ONE_PASSES)


def longer(text, times):
    """A source whose loops and constants go so many times as far, but not the counts and places of arrays of streams and of invokes."""
    constants = dict(re.findall(r"const int (\w+) = (\d+);", text))
    text = re.sub(r"(tapa::(?:streams|invoke|join|detach)(?:<\w+)?, )(\w+)", lambda it: it[1] + constants.get(it[2], it[2]), text)
    text = re.sub(r"\.invoke.*", lambda line: re.sub(r"(?<=\[)\w+(?=\])", lambda it: constants.get(it[0], it[0]), line[0]), text)
    text = re.sub(r"(for \([^;]*; \w+ <=? )(\d+)(;)", lambda it: f"{it[1]}{int(it[2]) * times}{it[3]}", text)
    return re.sub(r"(const (?:int|uint64_t) \w+ = )(\d+)(;)", lambda it: f"{it[1]}{int(it[2]) * times}{it[3]}", text)


def longer_data(data, times):
    memories = {name: (cells * times)[:CELLS] for name, cells in data.get("memories", {}).items()}
    scalars = {name: min(value * times, CELLS) for name, value in data.get("scalars", {}).items()}
    return {"memories": memories, "scalars": scalars}


def in_row(tasks, turns, first, middle, last):
    """Tasks in a row, each of which makes so many turns of what stands here for it."""
    bodies = [("tapa::ostream<int>& q", *first), ("tapa::istream<int>& p, tapa::ostream<int>& q", *middle), ("tapa::istream<int>& p", *last)]
    text = "".join(f"void {name}({ends}) {{ {before}for (int i = 0; i < {turns}; ++i) {{ {turn} }} }}\n" for name, (ends, before, turn) in zip("PMC", bodies))
    streams = "".join(f"tapa::stream<int> s{at}; " for at in range(tasks - 1))
    between = "".join(f".invoke(M, s{at}, s{at + 1})" for at in range(tasks - 2))
    return f"{text}void T() {{ {streams}tapa::task().invoke(P, s0){between}.invoke(C, s{tasks - 2}); }}\n"


def busy(tasks, turns):
    """Tasks in a row that compute on each token."""
    middle = "int x = p.read(); int y = x ^ i; y = y + (x >> 3); q << y;"
    return in_row(tasks, turns, ("int x = 1; ", "x = x * 5 + 3; q << x;"), ("", middle), ("int s = 0; ", "s = s + p.read();"))


def waiting(tasks):
    """A chain of tasks that all wait for tokens, of which few come."""
    return in_row(tasks, 3, ("", "q << i;"), ("", "int x = p.read(); q << x + 1;"), ("", "p.read();"))


def written(path):
    """A circuit of tests/measure/cosim_speed: its first line tells the top task, the scalars and how many cells each memory has, which are filled with numbers of a fixed seed."""
    text = Path(path).read_text(encoding="utf-8")
    _, top, told = text.split("\n")[0].split(maxsplit=2)
    told, numbers = json.loads(told), random.Random(7)
    memories = {name: [numbers.randrange(256) for _ in range(count)] for name, count in told["cells"].items()}
    return os.path.basename(path).removesuffix(".cpp"), text, top, {"scalars": told["scalars"], "memories": memories}


def cases():
    """Each circuit: its name, its source, its top task and its data."""
    for path in sources("examples"):
        _, top, *data = first_words(path)
        times = FEWER.get(Path(path).stem, TIMES)
        yield Path(path).stem, longer(read(path), times), top, longer_data(json.loads(read(data[0])) if data else {}, times)
    yield "36 busy tasks in a row", busy(36, 2_000), "T", {}
    yield ONE_PASSES, waiting(512), "T", {}
    yield from (written(path) for path in sorted(glob.glob(os.path.join(HERE, "cosim_speed", "*.cpp"))))


def once(words, folder):
    """The processor seconds of a call, and the lines that it printed."""
    with open(os.path.join(folder, "said"), "wb") as out:
        seconds = timed(words, folder, out).seconds
    return seconds, Path(folder, "said").read_text(encoding="utf-8").split("\n")


def build(program, folder, source, top, data):
    """Writes the source, its data and its circuit into a folder, and gives the text of the circuit."""
    for name, text in (("r.cpp", source), ("d.json", json.dumps(data))):
        Path(folder, name).write_text(text, encoding="utf-8")
    with open(os.path.join(folder, "x.v"), "w", encoding="utf-8") as file:
        subprocess.run([program, "build", "r.cpp", top], cwd=folder, stdout=file, check=True)
    return Path(folder, "x.v").read_text(encoding="utf-8")


def verilated(folder, more):
    """The call of the program that Verilator makes of the circuit and its testbench, with more words for it; none where Verilator is not there."""
    if not shutil.which("verilator"):
        return None
    words = ["verilator", "--binary", "-O3", *more, "--timing", "-Wno-fatal", "-Wno-lint", "-Wno-style", "--top-module", "bench", "-Mdir", "made", "x.v", "bench.v"]
    made = subprocess.run(words, cwd=folder, capture_output=True, check=False)
    if made.returncode:
        print(f"Verilator refuses a circuit: {made.stderr.decode()[:300].strip()}", file=sys.stderr)
        return None
    return [os.path.join(folder, "made", "Vbench")]


def measured(program, folder, text, data, simulators):
    """The cycles of a circuit, and the processor seconds of `cosim`, of Icarus and, where it is wanted and there, of Verilator."""
    with_verilator, more, times, middle = simulators
    Path(folder, "bench.v").write_text(icarus.bench(text, data, CYCLES), encoding="utf-8")
    subprocess.run(["iverilog", "-g2005", "-gno-xtypes", "-o", "bench", "x.v", "bench.v"], cwd=folder, check=True)
    compiled = verilated(folder, more) if with_verilator else None
    calls = [[program, "cosim", "x.v", "d.json", "--cycles", str(CYCLES)], ["vvp", "-n", "bench"], *([compiled] if compiled else [])]
    chosen = statistics.median if middle else min
    (own, lines), (other, same), *beside = [(chosen(seconds for seconds, _ in it), it[-1][1]) for it in by_turns(calls, times, lambda words: once(words, folder))]
    last = lines[-2]
    if last != same[-2]:
        sys.exit(f"they differ: {last}, {same[-2]}")
    # (Verilator's program says more behind the last line of a report)
    if beside and last not in beside[0][1]:
        sys.exit(f"Verilator's program does not say {last}")
    return int(last.split()[1]), own, other, beside[0][0] if beside else None


def ticks_of(report):
    """The cycles that a report comes to."""
    return int(report.split("\n")[-2].split()[1])


def count(program, folder, only):
    """Prints the instructions of a cycle of each circuit."""
    print("| circuit | instructions a cycle |\n|---|---|")
    found = []
    for name, source, top, data in cases():
        if only in name:
            build(program, folder, source, top, data)
            (few, before), (many, after) = (instructions([program, "cosim", "x.v", "d.json", "--cycles", str(cycles)], folder) for cycles in COUNTED)
            found.append((many - few) / (ticks_of(after) - ticks_of(before)))
            print(f"| {name} | {found[-1]:,.0f} |", flush=True)
    print(f"| geometric mean of {len(found)} | {statistics.geometric_mean(found):,.0f} |")


def ends(found):
    """The last rows of a table of circuits: (name, times as fast as Icarus, times as slow as Verilator or None)."""
    groups = [("geometric mean", statistics.geometric_mean, found), ("least", min, found), ("most", max, found)]
    groups.append(("geometric mean of those that wait,", statistics.geometric_mean, [it for it in found if it[0] in WAITING]))
    groups.append(("geometric mean of the others,", statistics.geometric_mean, [it for it in found if it[0] not in WAITING]))
    for what, taken, of in groups:
        if of:
            slower = [it[2] for it in of if it[2] is not None]
            yield f"| {what} of {len(of)} | | | | {taken([it[1] for it in of]):.1f} | | {f'{taken(slower):.2f}' if slower else ''} |"


def measure(program, folder, only, simulators):
    """Prints the seconds of each circuit beside the others' simulators."""
    print("| circuit | cycles | `cosim` | vvp | times as fast | Verilator | times as slow |\n|---|---|---|---|---|---|---|")
    found = []
    for name, source, top, data in cases():
        if only in name:
            cycles, own, other, compiled = measured(program, folder, build(program, folder, source, top, data), data, simulators)
            slower = None if compiled is None else own / max(compiled, 0.001)
            found.append((name, other / own, slower))
            beside = "|" if slower is None else f"{compiled:.4f} s | {slower:.2f}"
            print(f"| {name} | {cycles:,} | {own:.4f} s | {other:.3f} s | {other / own:.1f} | {beside} |", flush=True)
    print("\n".join(ends(found)))


@script.words(*script.PROGRAM)
@script.word("--median", metavar="N", type=script.number(1), help="the median of N calls in place of the best of three")
@script.word("--only", metavar="WORD", default="", help="the circuits whose name has the word")
@script.word("--no-verilator", action="store_true", help="leaves Verilator out")
@script.word("--g++-O3", dest="more", action="store_const", const=OPTIMISED, default=(), help="Verilator's program is compiled with -O3")
@script.word("--counted", action="store_true", help="counts instructions")
def main(asked):
    with tempfile.TemporaryDirectory() as folder:
        if asked.counted:
            count(asked.program, folder, asked.only)
        else:
            measure(asked.program, folder, asked.only, (not asked.no_verilator, asked.more, asked.median or 3, bool(asked.median)))


if __name__ == "__main__":
    script.call(main)
