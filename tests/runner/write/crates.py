"""The list of crates by room, as docs/ARCHITECTURE.md and crates/README.md have it: rooms of crates.txt, and of each crate the first sentence of its `//!` lines; crates/README.md has its
size besides.

The runner checks that the lists there are these.
"""
import itertools
import os
import re
from pathlib import Path

from runner.trial import ROOT, read
from runner.write import lists


def rooms():
    """Each room of crates.txt: its heading, and its crates in order."""
    parts = re.split(r"^# ---- (.*)\n", read("crates.txt"), flags=re.M)
    return [(heading.strip(), re.findall(r"^(\w+):", body, re.M)) for heading, body in zip(parts[1::2], parts[2::2])]


def what_it_is(crate):
    """The first sentence of a crate's own comment."""
    for name in ("lib.rt", "main.rt"):
        path = os.path.join(ROOT, "crates", crate, "src", name)
        if os.path.exists(path):
            lines = Path(path).read_text(encoding="utf-8").splitlines()
            return lists.sentence(" ".join(line.lstrip("/!").strip() for line in itertools.takewhile(lambda line: line.startswith("//"), lines)))
    return ""


def text():
    parts = []
    for heading, crates in rooms():
        parts.append(f"**{heading[0].upper()}{heading[1:]}.**\n\n| crate | what it is |\n|---|---|\n")
        parts += [f"| {crate} | {what_it_is(crate)} |\n" for crate in crates]
        parts.append("\n")
    return "".join(parts)


def lines_in(crate, folder, is_code=False):
    """How many lines the files of a folder of a crate have; of code those that are not empty and not a comment."""
    lines = [line for path in Path(ROOT, "crates", crate, folder).rglob("*") if path.suffix in (".rt", ".antt") for line in path.read_text(encoding="utf-8").splitlines()]
    return sum(not is_code or bool(line.strip()) and not line.lstrip().startswith("//") for line in lines)


def theorems(crate):
    """How many laws a crate has."""
    return sum(len(re.findall(r"^pub fn law_\w+\(", path.read_text(encoding="utf-8"), re.M)) for path in Path(ROOT, "crates", crate, "src").rglob("*.rt"))


def sized(crate):
    """A crate's row of crates/README.md."""
    numbers = [lines_in(crate, "src", is_code=True), lines_in(crate, "specs"), lines_in(crate, "proofs"), theorems(crate)]
    return f"| [{crate}]({crate}) | {what_it_is(crate)} | {' | '.join(f'{number:,}' if number else '' for number in numbers)} |\n"


def sizes():
    """The crates of each room with their sizes, as crates/README.md has them."""
    parts = []
    for heading, crates in rooms():
        parts.append(f"\n## {heading[0].upper()}{heading[1:]}\n\n| crate | what it is | code | definitions | proofs | theorems |\n|---|---|---|---|---|---|\n")
        parts += [sized(crate) for crate in crates]
    return "".join(parts)


LISTS = {"docs/ARCHITECTURE.md": text, "crates/README.md": sizes}
