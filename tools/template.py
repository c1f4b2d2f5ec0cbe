#!/usr/bin/env python3
"""Writes a data file for a source, to be filled in: each scalar parameter of the top task with 0, and each memory with a few cells.

    tools/template.py SRC TOP [CELLS] > F.json
"""
import sys

sys.dont_write_bytecode = True
from vechaqir import script  # noqa: E402
from vechaqir.host import data  # noqa: E402
from vechaqir.language import source  # noqa: E402

MOST_CELLS = 65_536


@script.words(*script.DESIGN)
@script.word("cells", metavar="CELLS", nargs="?", type=script.number(0, MOST_CELLS), default=4, help="the cells of each memory, 4 if not given: the list's length is the memory's size (docs/DATA.md)")
def main(asked):
    read = source.read(asked.source)
    source.network(read, asked.top)
    if not read.tasks[asked.top].is_upper:
        uppers = ", ".join(it.name for it in read.tasks.values() if it.is_upper)
        raise script.Fault(f"{asked.top} invokes no task, so it is no top task: {f'{asked.source} has {uppers}' if uppers else f'{asked.source} has none'}")
    sys.stdout.write(data.text_of(data.template(read.tasks[asked.top], asked.cells)))


if __name__ == "__main__":
    script.call(main)
