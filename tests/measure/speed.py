#!/usr/bin/env python3
"""Measures how fast a built `tapa` runs programs, and prints the rows of docs/FIGURES.md, "Speed".

    tests/measure/speed.py PROGRAM [WORD]              all of them, or those whose name has the word
    tests/measure/speed.py PROGRAM --workers [WORD]    the same by several workers: a column for each number of them
    tests/measure/speed.py PROGRAM --counted [WORD]    loops of one task by counted instructions (valgrind), which other work does not disturb
    tests/measure/speed.py PROGRAM --loops [WORD]      loops of one task beside plain loops, and a chain beside plain C++ in one thread and in a thread for each task: medians

The sources are those of tests/measure/speed/, and wide networks that are made here. Seconds are processor seconds of one call, the best of seven, with the
report, which goes nowhere; ticks are those that the report counts. Where g++ is there, the anchors of tests/measure/speed/ are compiled with -O2
and measured beside it. With --workers a cell has the seconds by the clock and the processor seconds, of the call that was best by the clock: they say
something on a machine that has nothing else to do, and has as many processors as workers. With --loops a call of `run` takes some 50 to 300 ms and
stands next to a call of each anchor, seven times in all; a plain loop, and the chain in one thread, goes ten times as far, so that it takes about as long.
A cell is the median of the seven, "single rounds" the least and the most of the seven quotients of two calls that stand together. By the clock a thread for
each task says something on a machine that has nothing else to do.
"""
import json
import os
import shutil
import statistics
import subprocess
import sys
import tempfile
from pathlib import Path

sys.dont_write_bytecode = True
sys.path.insert(0, os.path.dirname(os.path.dirname(os.path.abspath(__file__))))
from runner.made.programs import apart, by_phases, chain, hub, one_heavy, pair, queue, uneven  # noqa: E402
from runner.timed import by_turns, instructions, timed  # noqa: E402
from vechaqir import script  # noqa: E402

HERE = os.path.dirname(os.path.abspath(__file__))
REPEATS = 7
WORKERS = (1, 2, 4, 64)
# loops of one task, each with its source and its anchor, which turns as often
LOOPS = (
    ("a hash", "hash", 5_000_000),
    ("a hash in 32 bits", "hash32", 5_000_000),
    ("tests within tests", "nested", 4_000_000),
    ("a table", "array", 5_000_000),
    ("a filter", "fir", 4_000_000),
    ("each kind of integers", "kinds", 2_000_000),
)
# with --loops: the busy task is shorter, a plain loop makes so many times the turns, and the chain passes so many tokens
SHORT_LOOPS = (("a busy task", "busy", 10_000_000), *LOOPS)
PLAIN, TOKENS = 10, 400_000


def source(name):
    return Path(HERE, "speed", f"{name}.cpp").read_text(encoding="utf-8")


def cases():
    """Each measurement: its name, its source, its top task, and its data."""
    yield "a busy task, 50,000,000 turns", source("busy"), "Top", {"scalars": {"n": 50_000_000}, "memories": {"m": [0]}}
    yield "a task with an array, a memory and several kinds, 3,000,000 turns", source("mixed"), "Top", {"scalars": {"n": 3_000_000}, "memories": {"m": [0] * 256}}
    for name, file, turns in LOOPS:
        yield f"{name}, {turns:,} turns", source(file), "Top", {"scalars": {"n": turns}, "memories": {"m": [0]}}
    yield "a chain of ten, 1,000,000 tokens, depth 16", chain(10, 1_000_000), "T", {}
    # (rows that are compared make about as many ticks, so that none has more of the start in its time)
    for workers, rounds in ((8, 240_000), (500, 4_000)):
        yield f"a hub and {workers} workers, {rounds:,} rounds", hub(workers, rounds), "Top", {}
    for count, rounds in ((1, 2_000_000), (1_000, 6_000)):
        yield f"two tasks and {count:,} stream{'s' if count > 1 else ''}, {rounds:,} rounds", pair(count, rounds), "Top", {}
    yield from ((f"a task held up on its output, input depth {depth:,}", queue(depth, 1_000_000), "Top", {}) for depth in (2, 4_096))
    yield "64 busy tasks side by side, 300,000 turns", apart(64, 300_000), "Top", {}
    yield "64 busy tasks side by side, 1,200,000 turns", apart(64, 1_200_000), "Top", {}
    yield "a chain of ten whose tasks make 1,800 turns a token, 2,000 tokens", uneven([1_800] * 10, 2_000), "Top", {}
    yield "a chain of ten whose tasks make 30 and 300 turns a token by turns, 20,000 tokens", uneven([30, 300] * 5, 20_000), "Top", {}
    yield "a chain of ten in which one task makes 3,000 turns a token and the others 30, 5,000 tokens", uneven([30] * 5 + [3_000] + [30] * 4, 5_000), "Top", {}
    yield "a busy task, 10,000,000 turns, beside a chain of five, 400,000 tokens", one_heavy(10_000_000, 5, 400_000), "Top", {}
    yield "two tasks that hand over 40,000 tokens and make 1,000,000 turns each, five times", by_phases(20_000, 1_000_000, 5), "Top", {}
    yield from ((f"a ring of three, {turns:,} turns", source("ring"), "Top", {"scalars": {"n": turns}}) for turns in (100_000, 400_000, 1_600_000))


def used(words, folder, out=subprocess.DEVNULL):
    """The processor seconds, the megabytes and the seconds by the clock of one call, which must end well."""
    took = timed(words, folder, out)
    if took.status:
        sys.exit(f"{words}: status {took.status}: {took.err[:300].strip()}")
    return took[:3]


def ticks_of(words, folder):
    """The ticks that a report counts; of a long report only the end is kept."""
    with open(os.path.join(folder, "report"), "wb") as it:
        used(words, folder, it)
    with open(os.path.join(folder, "report"), "rb") as it:
        it.seek(max(0, os.path.getsize(it.name) - 100))
        word, ticks = it.read().decode().split()[-2:]
    os.remove(os.path.join(folder, "report"))
    if word != "done":
        sys.exit(f"{words}: it ended with {word}")
    return int(ticks)


def anchor(file, folder, *options):
    """The program that g++ makes of an anchor."""
    built = os.path.join(folder, f"{file}_anchor")
    subprocess.run(["g++", "-O2", *options, "-o", built, os.path.join(HERE, "speed", f"{file}_anchor.cc")], check=True)
    return built


def anchors(folder):
    """Plain C++ of some rows, by how their names begin: the seconds of one call."""
    if not shutil.which("g++"):
        return {}
    found = {}
    for name, file, count in (("a busy task", "busy", 50_000_000), ("a chain of ten", "chain", 1_000_000), *LOOPS):
        built = anchor(file, folder)
        found[name] = min(used([built, str(count)], folder)[0] for _ in range(REPEATS))
    return found


def put_one(folder, name, text, data):
    """Writes a source and its data."""
    for file, content in ((f"{name}.cpp", text), (f"{name}.json", json.dumps(data))):
        Path(folder, file).write_text(content, encoding="utf-8")


def called(program, name, top):
    """The call of `run` for a source that was written with its data."""
    return [program, "run", f"{name}.cpp", top, f"{name}.json", "--steps", "1000000000"]


def put_all(program, wanted, folder):
    """Writes the sources and their data, and gives the name and the call of each."""
    for at, (name, text, top, data) in enumerate(it for it in cases() if wanted in it[0]):
        put_one(folder, at, text, data)
        yield name, called(program, at, top)


def by_workers(program, wanted):
    """The rows by several workers: the least of all calls, and behind them how many times as fast as the call by one worker beside it a call is."""
    print(f"| what | {' | '.join(f'{count} worker' + 's' * (count > 1) for count in WORKERS)} | times as fast, medians |\n|---|{'---|' * len(WORKERS)}---|")
    with tempfile.TemporaryDirectory() as folder:
        rows = list(put_all(program, wanted, folder))
        # (the calls of a row by one worker and by more stand next to each other, so that a slow minute of the machine strikes them alike)
        spent = [[[used([*call, "--workers", str(count)], folder) for count in WORKERS] for _, call in rows] for _ in range(REPEATS)]
        for at, (name, _) in enumerate(rows):
            best = [min((one[at][column] for one in spent), key=lambda it: it[2]) for column in range(len(WORKERS))]
            gained = [statistics.median(one[at][0][2] / one[at][column][2] for one in spent) for column in range(1, len(WORKERS))]
            cells = [f"{clock:.2f} s ({seconds:.2f} s)" for seconds, _, clock in best] + [", ".join(f"{times:.2f}" for times in gained)]
            print(f"| {name} | {' | '.join(cells)} |", flush=True)
    return 0


def counted(program, wanted):
    """The instructions of a turn and of a tick of each loop, and those of a turn of its anchor: what two thousand further turns take."""
    print("| what | ticks a turn | instructions a turn | a tick | g++ -O2, a turn |\n|---|---|---|---|---|")
    turns = (1_000, 3_000)
    with tempfile.TemporaryDirectory() as folder:
        for name, file, _ in (("a busy task", "busy", 0), *LOOPS):
            if wanted not in name:
                continue
            made = []
            for n in turns:
                put_one(folder, "it", source(file), {"scalars": {"n": n}, "memories": {"m": [0]}})
                count, report = instructions([program, "run", "it.cpp", "Top", "it.json"], folder)
                made.append((count, int(report.split()[-1])))
            built = anchor(file, folder)
            least, most = (instructions([built, str(n)], folder)[0] for n in turns)
            count, ticks = (made[1][at] - made[0][at] for at in (0, 1))
            more = turns[1] - turns[0]
            print(f"| {name} | {ticks / more:.2f} | {count / more:.0f} | {count / ticks:.1f} | {(most - least) / more:.0f} |", flush=True)
    return 0


def median(spent, by_clock=False):
    return statistics.median(it[2 if by_clock else 0] for it in spent)


def rounds(over, under, scale=1, by_clock=False):
    """The least and the most of the quotients of calls that stand next to each other."""
    at = 2 if by_clock else 0
    quotients = [scale * one[at] / two[at] for one, two in zip(over, under)]
    return f"{min(quotients):.3g} to {max(quotients):.3g}"


def tell_loops(rows, spent):
    """Prints the loops, whose calls and those of their plain loops stand in pairs."""
    print("| loop | turns | `run` | g++ -O2, a tenth | a turn | g++ -O2, a turn | times as long | single rounds |\n|---|---|---|---|---|---|---|---|")
    ratios = []
    for (name, _, turns), own, plain in zip(rows, spent[::2], spent[1::2]):
        took, beside = median(own), median(plain) / PLAIN
        ratios.append(took / beside)
        print(f"| {name} | {turns:,} | {took:.3f} s | {beside:.4f} s | {took / turns * 1e9:.1f} ns | {beside / turns * 1e9:.2f} ns | {ratios[-1]:.1f} | {rounds(own, plain, PLAIN)} |")
    print(f"| geometric mean of {len(ratios)} | | | | | | {statistics.geometric_mean(ratios):.1f} | |\n| the most of {len(ratios)} | | | | | | {max(ratios):.1f} | |")


def tell_chain(name, own, rings, threads):
    """Prints the chain beside one thread of plain C++, which passes ten times as many tokens, and beside a thread for each task."""
    print(f"\n| {name} | by the clock | processor seconds | times as long as `run`, by the clock | single rounds | processor seconds |\n|---|---|---|---|---|---|")
    clock, seconds = median(own, True), median(own)
    print(f"| `run` | {clock:.3f} s | {seconds:.3f} s | | | |")
    for what, spent, scale in (("g++ -O2, one thread, a tenth", rings, 1 / PLAIN), ("g++ -O2, a thread a task", threads, 1)):
        took, all_took = median(spent, True) * scale, median(spent) * scale
        print(f"| {what} | {took:.3f} s | {all_took:.3f} s | {took / clock:.2f} | {rounds(spent, own, scale, True)} | {all_took / seconds:.2f} |")


def loops(program, wanted):
    """The loops of one task and the chain beside their anchors."""
    name = f"a chain of ten, {TOKENS:,} tokens, depth 16"
    with tempfile.TemporaryDirectory() as folder:
        rows, calls = [it for it in SHORT_LOOPS if wanted in it[0]], []
        for _, file, turns in rows:
            put_one(folder, file, source(file), {"scalars": {"n": turns}, "memories": {"m": [0]}})
            calls += [called(program, file, "Top"), [anchor(file, folder), str(PLAIN * turns)]]
        if wanted in name:
            put_one(folder, "chain", chain(10, TOKENS), {})
            calls += [called(program, "chain", "T"), [anchor("chain", folder), str(PLAIN * TOKENS)], [anchor("chain_threads", folder, "-pthread"), str(TOKENS)]]
        spent = by_turns(calls, REPEATS, lambda words: used(words, folder))
        if rows:
            tell_loops(rows, spent)
        if wanted in name:
            tell_chain(name, *spent[-3:])
    return 0


def rows(program, wanted):
    """Each program beside its anchor."""
    print("| what | ticks | time | ticks a second | memory | g++ -O2 |\n|---|---|---|---|---|---|")
    with tempfile.TemporaryDirectory() as folder:
        plain = anchors(folder)
        found = [(name, call, ticks_of(call, folder)) for name, call in put_all(program, wanted, folder)]
        # (the calls of a row are spread over the whole run, so that a slow minute of the machine strikes no row alone)
        spent = [[used(call, folder) for _, call, _ in found] for _ in range(REPEATS)]
        for at, (name, _, ticks) in enumerate(found):
            seconds, megabytes, _ = min(one[at] for one in spent)
            beside = next((f"{least:.3f} s" for start, least in plain.items() if name.startswith(f"{start},")), "")
            print(f"| {name} | {ticks:,} | {seconds:.2f} s | {ticks / max(seconds, 0.001) / 1e6:.0f} million | {megabytes:.0f} MB | {beside} |", flush=True)


@script.words(*script.PROGRAM)
@script.word("word", metavar="WORD", nargs="?", default="", help="those whose name has the word, all if not given")
@script.word("--workers", dest="way", action="store_const", const=by_workers, default=rows, help=by_workers.__doc__)
@script.word("--counted", dest="way", action="store_const", const=counted, default=rows, help=counted.__doc__)
@script.word("--loops", dest="way", action="store_const", const=loops, default=rows, help=loops.__doc__)
def main(asked):
    return asked.way(asked.program, asked.word)


if __name__ == "__main__":
    script.call(main)
