"""Leaf tasks in hand-written RTL (`measure/rtl/`), compared with the modules that `build` prints: in Icarus Verilog both have the same outputs in each of 2,000 random cycles. A
changed module differs, so the comparison can fail."""
import os
import shutil

from runner.made.handmade import TASKS, compare
from runner.trial import ROOT

CYCLES = 2_000
# A change of each task's printed module that a comparison must see.
WRONG = {"Mmap2Stream": ("64'd1 ;", "64'd2 ;"), "Add": ("x_4 + x_3", "x_4 - x_3"), "Tap": ("x_6 + e_7_2", "x_6 - e_7_2")}


def try_all(trial):
    if not shutil.which("iverilog"):
        trial.note("Icarus Verilog is not installed, so RTL by hand was not compared")
        return
    for name, (example, top) in TASKS.items():
        circuit = trial.run(["build", os.path.join(ROOT, "examples", f"{example}.cpp"), top]).out.decode()
        for seed in (1, 2):
            trial.check_equal(f"{name} by hand, seed {seed}", compare(circuit, name, trial.folder.name, CYCLES, seed), f"{CYCLES} cycles, 0 differ")
        old, new = WRONG[name]
        changed = circuit.replace(old, new)
        trial.check(f"{name} with {new} differs", old in circuit and not compare(changed, name, trial.folder.name, CYCLES).endswith(", 0 differ"))
