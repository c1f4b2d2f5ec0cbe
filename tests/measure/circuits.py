#!/usr/bin/env python3
"""Measures what circuits take of a device and how fast they are, by Yosys and nextpnr (Debian's `yosys` and `nextpnr-ice40`), next to RTL by hand.

    tests/measure/circuits.py PROGRAM [--seeds N] [--no-clocks] [--only W]

Prints two tables for docs/FIGURES.md: ten examples, and leaf tasks and channels, of which three tasks stand beside RTL by hand (tests/measure/rtl/), which is compared first, in 20,000 random
cycles. LUT are LUT1 to LUT6 and inverters, LUT RAM the LUTs of distributed RAM next to them. The clock is that of the circuit in the wrapper of `tools/board.py`, or of
a module by itself.
"""
import os
import subprocess
import sys
import tempfile

sys.dont_write_bytecode = True
HERE = os.path.dirname(os.path.abspath(__file__))
sys.path.insert(0, os.path.dirname(HERE))
from runner.made.handmade import TASKS, compare, hand_text  # noqa: E402
from runner.trial import ROOT, first_words  # noqa: E402
from vechaqir import script  # noqa: E402
from vechaqir.measure import board  # noqa: E402

CYCLES = 20_000
EXAMPLES = ["vector_add", "run_length", "fir", "bandwidth", "histogram", "page_rank", "jacobi", "bitonic", "systolic", "stencil"]
MODULES = [("vector_add", "t_Mmap2Stream"), ("vector_add", "t_Add"), ("vector_add", "t_Stream2Mmap"), ("fir", "t_Tap"), ("run_length", "t_Encode"), ("histogram", "t_Count"),
           ("page_rank", "t_Ranks"), ("jacobi", "t_Sweep"), ("bitonic", "t_Stage"), ("vector_add", "channel_33_2_0"), ("bandwidth", "fifo_33_16_16")]


class Circuits:
    """The circuits of the examples, built once each."""

    def __init__(self, program, folder, seeds):
        self.program, self.folder, self.seeds, self.texts = program, folder, seeds, {}

    def text(self, example):
        if example not in self.texts:
            self.texts[example] = subprocess.run([self.program, "build", *first_words(f"examples/{example}.cpp")[:2]], cwd=ROOT, capture_output=True, text=True, check=True).stdout
        return self.texts[example]

    def row(self, name, text, top):
        """A row of a table: what a module takes, and its clock."""
        try:
            large, small = board.xilinx(self.folder, text, top), board.ice40(self.folder, text, top)
            clock = f"{board.clock(self.folder, text, top, self.seeds):.1f}" if self.seeds else ""
        except script.Fault as why:
            return f"| {name} | {why} |"
        cells = [large[key] for key in ("lut", "lutram", "ff", "srl", "dsp")] + [small[key] for key in ("lut", "ff", "ram")]
        return f"| {name} | {' | '.join(map(str, cells))} | {clock} |"


def head(what):
    return [f"| {what} | LUT | LUT RAM | FF | SRL | DSP | iCE40 LUT4 | FF | RAM | MHz |", "|---" * 10 + "|"]


def tell(lines):
    for line in lines:
        print(line, flush=True)


def try_modules(circuits, only):
    """The table of leaf tasks and channels; of three tasks the RTL by hand next to the printed module."""
    tell(head("module"))
    for example, top in MODULES:
        if only in top:
            text = circuits.text(example)
            tell([circuits.row(f"{example}: `{top}`", text, top)])
            if top[2:] in TASKS:
                said = compare(text, top[2:], circuits.folder, CYCLES)
                tell([circuits.row(f"the same by hand, {said}", hand_text(top[2:]).replace("module hand_", "module t_"), top)])


@script.words(*script.PROGRAM)
@script.word("--seeds", metavar="N", type=script.number(1, 100), default=5, help="of how many seeds the clock is the median, 5 if not given")
@script.word("--no-clocks", action="store_true", help="leaves the clocks out")
@script.word("--only", metavar="W", default="", help="the examples and modules whose name has W")
def main(asked):
    lacking = board.missing()
    if lacking:
        raise script.Fault(f"Debian's {' and '.join(lacking)} are needed")
    with tempfile.TemporaryDirectory(prefix="tapa-circuits-") as folder:
        circuits = Circuits(asked.program, folder, 0 if asked.no_clocks else asked.seeds)
        tell(head("example"))
        for example in EXAMPLES:
            if asked.only in example:
                tell([circuits.row(example, circuits.text(example), f"t_{first_words(f'examples/{example}.cpp')[1]}")])
        print()
        try_modules(circuits, asked.only)


if __name__ == "__main__":
    script.call(main)
