#!/usr/bin/env python3
"""Measures what the gate spends on each crate, and makes the table of docs/FIGURES.md of it.

    tests/measure/gate_seconds.py watch LOG .ci/run     runs the command, passes its output on, and writes it to LOG with the seconds behind it
    tests/measure/gate_seconds.py table LOG             prints the table, the slowest crate first

Seconds are processor seconds of the prover's processes below the command, by the crate that their words name: those that prove it, those that
prove its tests, and those that try its edits. They are looked at twice a second, so that the last half second of each is lost.
"""
import os
import re
import subprocess
import sys
import threading
import time
from pathlib import Path
from argparse import REMAINDER

sys.dont_write_bytecode = True
sys.path.insert(0, os.path.join(os.path.dirname(os.path.abspath(__file__)), "..", "..", "tools"))
from vechaqir import script  # noqa: E402

TICKS = os.sysconf("SC_CLK_TCK")
KINDS = ("proof", "tests", "edits")


def processes():
    """Each process: its parent, and the ticks that it and its ended children have used."""
    found = {}
    for name in os.listdir("/proc"):
        if name.isdigit():
            try:
                fields = Path(f"/proc/{name}/stat").read_text(encoding="latin-1").rpartition(")")[2].split()
            except OSError:
                continue
            found[int(name)] = int(fields[1]), sum(map(int, fields[11:15])), int(fields[19])
    return found


def below(found, root):
    """The processes below one, those above first."""
    children = {}
    for pid, (parent, _, _) in found.items():
        children.setdefault(parent, []).append(pid)
    order = [root]
    for pid in order:
        order += children.get(pid, [])
    return order[1:]


def work_of(pid):
    """The crate that a process works on and the kind of work, if its words name one."""
    try:
        words = Path(f"/proc/{pid}/cmdline").read_bytes().decode("utf-8", "replace").split("\0")
        folder = os.readlink(f"/proc/{pid}/cwd")
    except OSError:
        return None
    if "--crate-name" not in words[:-1]:
        return None
    return words[words.index("--crate-name") + 1], "edits" if "rt-edit" in folder else "tests" if "--test" in words else "proof"


def look(root, used, known):
    """Writes down the ticks of each piece of work as they are now."""
    found = processes()
    owners = {}
    now = {}
    for pid in below(found, root):
        parent, ticks, begun = found[pid]
        owner = owners.get(parent)
        if owner is None:
            key = pid, begun
            if known.get(key) is None:
                known[key] = work_of(pid)
            owner = (key, known[key]) if known[key] else None
        owners[pid] = owner
        if owner:
            now[owner] = now.get(owner, 0) + ticks
    for owner, ticks in now.items():
        used[owner] = max(used.get(owner, 0), ticks)


def watch(log, command):
    started = time.monotonic()
    ran = subprocess.Popen(command, stdout=subprocess.PIPE, stderr=subprocess.STDOUT)
    used, known, over = {}, {}, threading.Event()

    def go_on():
        while not over.wait(0.5):
            look(ran.pid, used, known)

    watcher = threading.Thread(target=go_on)
    watcher.start()
    with open(log, "wb") as file:
        for line in ran.stdout:
            sys.stdout.buffer.write(line)
            sys.stdout.buffer.flush()
            file.write(line)
        status = ran.wait()
        over.set()
        watcher.join()
        sums = {}
        for (_, work), ticks in used.items():
            sums[work] = sums.get(work, 0) + ticks / TICKS
        for (crate, kind), seconds in sorted(sums.items()):
            file.write(f"seconds: {crate} {kind} {seconds:.1f}\n".encode())
        file.write(f"seconds: all wall {time.monotonic() - started:.0f}\n".encode())
    return status


def table(log):
    rows = re.findall(r"^seconds: (\w+) (\w+) ([\d.]+)$", Path(log).read_text(encoding="utf-8", errors="replace"), re.M)
    wall = [seconds for crate, kind, seconds in rows if kind == "wall"]
    crates = {}
    for crate, kind, seconds in rows:
        if kind in KINDS:
            crates.setdefault(crate, dict.fromkeys(KINDS, 0.0))[kind] += float(seconds)
    print("| crate | proof | tests | edits | all |\n|---|---|---|---|---|")
    for crate, parts in sorted(crates.items(), key=lambda it: -sum(it[1].values())):
        print(f"| {crate} | {' | '.join(f'{parts[kind]:.0f}' for kind in KINDS)} | {sum(parts.values()):.0f} |")
    sums = [sum(parts[kind] for parts in crates.values()) for kind in KINDS]
    print(f"| all | {' | '.join(f'{it:.0f}' for it in sums)} | {sum(sums):.0f} |")
    if wall:
        print(f"\nFrom begin to end: {int(wall[-1]) // 60} minutes {int(wall[-1]) % 60} seconds.")
    return 0


@script.word("what", metavar="watch|table", choices=("watch", "table"), help="runs a command and writes a log, or makes the table of it")
@script.word("log", metavar="LOG", help="the log")
@script.word("command", metavar="COMMAND", nargs=REMAINDER, help="the command")
def main(asked):
    return watch(asked.log, asked.command) if asked.what == "watch" else table(asked.log)


if __name__ == "__main__":
    script.call(main)
