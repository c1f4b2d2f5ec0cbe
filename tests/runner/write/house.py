"""What of the crates is not as CONTRIBUTING.md wants it: large crates, functions and files, many arguments, bodies that stand twice, definitions that nothing names, comments that lean on another, crates without code.

The runner refuses what is not in tests/runner/exceptions.txt, and what there holds no more.
"""
import sys
from pathlib import Path

from runner.groups import house
from runner.trial import ROOT, read


def main(is_shrinking):
    """Prints what is found, and how many of each kind; or takes away from the list of exceptions what holds no more."""
    are = house.found()
    if not is_shrinking:
        kinds = [line.split()[0] for line in are]
        print("\n".join(are))
        print(", ".join(f"{kinds.count(kind)} {kind}" for kind in sorted(set(kinds))), file=sys.stderr)
        return
    gone, kept = house.without(house.listed(), are), []
    for line in read(house.EXCEPTIONS).splitlines():
        if line in gone:
            gone.remove(line)
        else:
            kept.append(line)
    Path(ROOT, house.EXCEPTIONS).write_text("\n".join(kept) + "\n", encoding="utf-8")
