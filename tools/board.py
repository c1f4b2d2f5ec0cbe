#!/usr/bin/env python3
"""Takes a circuit that `tapa build` wrote through Yosys and nextpnr to a routed netlist of an iCE40 HX8K, and prints what it takes and its clock.

    tools/board.py VTEXT [--seeds N] [--keep FOLDER]

Needs Debian's packages `yosys` and `nextpnr-ice40`. The circuit's ports are folded to three pins by a wrapper, in which every path starts and ends at a register
(docs/BOARD.md).
"""
import os
import sys
import tempfile

sys.dont_write_bytecode = True
from vechaqir import script  # noqa: E402
from vechaqir.host import files  # noqa: E402
from vechaqir.measure import board  # noqa: E402


def tell(folder, text, top, seeds):
    """Prints what the circuit takes by itself, and what nextpnr makes of it in its wrapper."""
    alone = board.ice40(folder, text, top)
    print(f"circuit {top}: {alone['lut']} LUT4, {alone['ff']} flip-flops, {alone['ram']} block RAMs", flush=True)
    board.netlist(folder, text, top)
    clocks, cells = [], 0
    for seed in range(1, seeds + 1):
        clock, cells = board.placed(folder, seed)
        clocks.append(clock)
        print(f"placement {seed}: {clock:.1f} MHz", flush=True)
    print(f"with its wrapper: {cells} of 7680 logic cells, {sorted(clocks)[len(clocks) // 2]:.1f} MHz")


@script.word("text", metavar="VTEXT", help="the circuit")
@script.word("--seeds", metavar="N", type=script.number(1, 100), default=3, help="the clock is the median of N placements, of 3 if not given")
@script.word("--keep", metavar="FOLDER", help="where the wrapper, the netlist and the routed design are left")
def main(asked):
    lacking = board.missing()
    if lacking:
        raise script.Fault(f"this needs Debian's {' and '.join(lacking)}: apt-get install {' '.join(lacking)}")
    text = files.text(asked.text)
    top = board.top_of(text)
    with tempfile.TemporaryDirectory(prefix="tapa-board-") as folder:
        if asked.keep:
            os.makedirs(asked.keep, exist_ok=True)
        tell(asked.keep or folder, text, top, asked.seeds)


if __name__ == "__main__":
    script.call(main)
