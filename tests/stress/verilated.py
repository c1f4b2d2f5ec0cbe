#!/usr/bin/env python3
"""Makes a program of each example's testbench by Verilator (5.006 or later), with memories that answer in each way by turns, and looks whether it passes.

    tests/stress/verilated.py PROGRAM [NAME..]

Each takes some twelve seconds of a processor; the runner makes one of them.
"""
import os
import sys

sys.dont_write_bytecode = True
sys.path.insert(0, os.path.dirname(os.path.dirname(os.path.abspath(__file__))))
from runner.groups import benches, examples  # noqa: E402
from runner.trial import Trial  # noqa: E402
from vechaqir import script  # noqa: E402


@script.words(*script.PROGRAM)
@script.word("names", metavar="NAME", nargs="*", help="examples, all if none is given")
def main(asked):
    trial = Trial(asked.program)
    trial.begin("verilated")
    for at, name in enumerate(examples.names()):
        if not asked.names or name.rpartition("/")[2] in asked.names:
            benches.try_verilator(trial, name.rpartition("/")[2], benches.WAYS[at % 4])
    return trial.end()


if __name__ == "__main__":
    script.call(main)
