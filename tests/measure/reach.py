#!/usr/bin/env python3
"""What the gate has to prove anew after a change: the crates that stand on a crate, and the seconds of docs/FIGURES.md's table that they take with their tests and edits.

    tests/measure/reach.py            the crates by their reach, the widest first, and the sum of all
    tests/measure/reach.py CRATE..    of each of these its reach, and the crates in it

A crate without a row in the table counts nothing.
"""
import os
import re
import sys

sys.dont_write_bytecode = True
sys.path.insert(0, os.path.dirname(os.path.dirname(os.path.abspath(__file__))))
from runner.trial import read  # noqa: E402
from vechaqir import script  # noqa: E402


def seconds():
    """The seconds of each crate: its proof, its tests and its edits."""
    found = {}
    for row in re.findall(r"^\| (\w+ \| \d+ \| \d+ \| \d+ \|.*)$", read("docs/FIGURES.md"), re.M):
        cells = [cell.strip() for cell in row.strip("| ").split("|")]
        for at in range(0, len(cells) - 3, 4):
            found[cells[at]] = sum(map(int, cells[at + 1 : at + 4]))
    return found


def reach(crate, below):
    """The crate and all that stand on it, those below first."""
    found = [crate]
    while True:
        more = [name for name, words in below.items() if name not in found and set(words) & set(found)]
        if not more:
            return [name for name in below if name in found]
        found += more


@script.word("crates", metavar="CRATE", nargs="*", help="the crates, all if none is given")
def main(asked):
    below, spent = {name: words.split() for name, words in re.findall(r"^(\w+):(.*)$", read("crates.txt"), re.M)}, seconds()
    for crate in asked.crates:
        if crate not in below:
            raise script.Usage(f"{crate} is no crate")
    reaches = {crate: reach(crate, below) for crate in asked.crates or below}
    cost = {crate: sum(spent.get(name, 0) for name in names) for crate, names in reaches.items()}
    for crate in asked.crates or sorted(cost, key=lambda name: -cost[name]):
        print(f"{cost[crate]:7} {len(reaches[crate]):3} {crate}" + (f": {' '.join(reaches[crate])}" if asked.crates else ""))
    if not asked.crates:
        print(f"{sum(cost.values()):7} in all")


if __name__ == "__main__":
    script.call(main)
