#!/usr/bin/env python3
"""Tries more of the random inputs of a group than the gate does: arrays, dumps, editor or grammar, each as tests/README.md describes it, or memories: circuits of random leaf tasks in
Icarus Verilog with memories that answer late, as tools/check_memories.py has them, each without a device and for one on which its streams cross borders.

    tests/stress/more.py PROGRAM GROUP [COUNT [SEED]]

Each input whose answer is wrong is printed, and for sources how often each answer came. The last line is `N passed, M failed`.
"""
import itertools
import json
import os
import random
import sys

sys.dont_write_bytecode = True
sys.path.insert(0, os.path.dirname(os.path.dirname(os.path.abspath(__file__))))
from runner.groups import arrays, dumps, editor, grammar  # noqa: E402
from runner.made import leaves  # noqa: E402
from runner.trial import Trial  # noqa: E402
from vechaqir import script  # noqa: E402
import check_memories  # noqa: E402


def device(some):
    """A device of one row on which the three tasks stand in slots of their own choice."""
    slots = [{kind: 10**9 for kind in ("LUT", "FF", "BRAM", "DSP", "URAM")}] * 3
    pins = {label: [0, some.randrange(3)] for label in ("F$0", "L$1", "S$2")}
    return json.dumps({"rows": 1, "cols": 3, "percent": 100, "levels": some.randint(1, 3), "slots": slots, "tasks": {}, "pins": pins})


def try_memories(trial, count, first):
    """The circuits of random leaf tasks; of a program that does not end none is tried."""
    for seed, words in itertools.product(range(first, first + count), ([], ["--device", "device.json"])):
        some = random.Random(f"memories {seed}")
        source, data = trial.put("leaf.cpp", leaves.source(seed)), trial.put("data.json", json.dumps(leaves.DATA))
        words = [trial.put(word, device(some)) if "." in word else word for word in words]
        found = check_memories.check(trial.program, source, "T", data, some, check_memories.built(trial.program, source, "T", *words))
        if found is not None:
            trial.check(f"program {seed} {'on a device' if words else ''}", not found, "\n".join(found))


# What tries so many inputs from a seed on, and how many if no number is given.
GROUPS = {
    "arrays": (lambda trial, count, seed: arrays.try_random(trial, range(seed, seed + count)), 1_000),
    "dumps": (lambda trial, count, seed: dumps.try_random(trial, count, seed), 1_000),
    "editor": (lambda trial, count, seed: editor.flood(trial, seed, count), 10_000),
    "memories": (try_memories, 100),
    "grammar": (lambda trial, count, seed: grammar.try_numbers(trial, range(seed, seed + count)), 3_000),
}


@script.words(*script.PROGRAM)
@script.word("group", metavar="GROUP", choices=GROUPS, help="one of " + ", ".join(GROUPS))
@script.word("count", metavar="COUNT", nargs="?", type=script.number(1), help="how many inputs: 10,000 messages to the editor's server, 3,000 sources of the grammar, 100 programs with memories, 1,000 others")
@script.word("seed", metavar="SEED", nargs="?", type=script.number(), default=2, help="where their chance begins, 2 if not given")
def main(asked):
    trial, (tries, count) = Trial(asked.program, is_whole=False), GROUPS[asked.group]
    trial.begin(asked.group)
    found = tries(trial, asked.count or count, asked.seed)
    if found:
        print(", ".join(f"{'files' if answer in (None, '') else answer}: {found[answer]}" for answer in sorted(found, key=str)))
    return trial.end()


if __name__ == "__main__":
    script.call(main)
