#!/usr/bin/env python3
"""Runs a circuit that `tapa build` wrote in Icarus Verilog, and prints the report that `tapa cosim` prints.

    tools/icarus.py VTEXT [DATA] [--cycles N] [--dump F.vcd] [--bench F.v] [--beside F.vcd]

Needs `iverilog` and `vvp` (11 or later). A testbench is made: reset in cycle 0, the scalars, and memories that answer within the cycle by their ready lists. Registers begin
unknown, as IEEE 1364-2005 says. A dump has all nets, for GTKWave and others (docs/CIRCUIT.md, "A task's nets", says what they are; a cycle is 10 units of time).
"""
import os
import shutil
import sys
import tempfile
from pathlib import Path

sys.dont_write_bytecode = True
from vechaqir import script  # noqa: E402
from vechaqir.host import data as inputs, files  # noqa: E402
from vechaqir.measure import icarus  # noqa: E402


@script.word("text", metavar="VTEXT", help="the circuit")
@script.word("data", metavar="DATA", nargs="?", help="a data file (docs/DATA.md)")
@script.word("--cycles", metavar="N", type=script.number(), default=10_000_000, help="the most cycles, 10 million if not given")
@script.word("--dump", metavar="F.vcd", help="writes a waveform")
@script.word("--bench", metavar="F.v", help="writes the testbench")
@script.word("--beside", metavar="F.vcd", help="compares each net in each cycle with this dump of `tapa cosim --vcd`")
def main(asked):
    text = files.text(asked.text)
    found = inputs.read(asked.data) if asked.data else inputs.Data()
    data = {"scalars": found.scalars, "memories": found.memories, "waits": found.ready}
    icarus.missing(icarus.top_of(text)[1], data, asked.data or "{}")
    with tempfile.TemporaryDirectory(prefix="tapa-icarus-") as folder:
        made, ran = os.path.join(folder, "bench.v"), os.path.join(folder, "bench")
        dump = asked.dump or (os.path.join(folder, "bench.vcd") if asked.beside else None)
        Path(made).write_text(icarus.bench(text, data, asked.cycles, dump), encoding="utf-8")
        if asked.bench:
            shutil.copyfile(made, asked.bench)
        said = icarus.simulated(ran, (asked.text, made), asked.text)
        if asked.beside:
            others = list(icarus.differences(asked.beside, dump))
            print("".join(f"{line}\n" for line in others), end="")
            return 1 if others else 0
    print("\n".join(icarus.report(text, said)))


if __name__ == "__main__":
    script.call(main)
