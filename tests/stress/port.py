#!/usr/bin/env python3
"""Ports generated sources with templates, structs and helper functions by `tools/port.py`, and compares each with its original, which g++ compiles, on three data files.

    tests/stress/port.py PROGRAM [--count N] [--seed S] [--first N] [--keep FOLDER]
    tests/stress/port.py PROGRAM --rows FILE          the sources of a table instead, as cases/port/small.rows
    tests/stress/port.py PROGRAM --hostile            sources that are cut, binary, large or deep, each of which ends in a sentence within ten seconds of CPU time

Each source that differs is printed, or kept in FOLDER. The last line is `N passed, M failed`. It needs Debian's packages python3-clang and g++.
"""
import os
import random
import re
import sys

sys.dont_write_bytecode = True
sys.path.insert(0, os.path.dirname(os.path.dirname(os.path.abspath(__file__))))
from runner.trial import Trial  # noqa: E402
from vechaqir import script  # noqa: E402
from vechaqir.port import command  # noqa: E402

# So many sources are one native program.
TOGETHER = 20


def words():
    asked = script.Words(__doc__, *script.PROGRAM)
    asked.add_argument("--count", metavar="N", type=script.number(1), default=500, help="how many sources, 500 if not given")
    asked.add_argument("--seed", metavar="S", default="1", help="another seed makes other sources")
    asked.add_argument("--first", metavar="N", type=script.number(0), default=0, help="the number of the first source")
    asked.add_argument("--keep", metavar="FOLDER", help="keeps each source that differs, with what is wrong in its first line")
    asked.add_argument("--hostile", action="store_true", help="hostile sources")
    asked.add_argument("--rows", metavar="FILE", help="a table of sources")
    return asked


def generated(asked):
    """The sources by their numbers, some at a time."""
    from runner import ported
    from runner.made import ported_tasks
    end = asked.first + asked.count
    for first in range(asked.first, end, TOGETHER):
        some = [(at, ported_tasks.source(random.Random(f"port {asked.seed} {at}"))) for at in range(first, min(first + TOGETHER, end))]
        yield [ported.Source(f"{asked.seed}.{at}", text, "Top", data) for at, (text, data) in some]


def table(path):
    """The sources of a table: `NAME | LEFT | DATA `source``."""
    import json
    from runner import ported
    with open(path, encoding="utf-8") as file:
        text = re.sub(r"^#.*\n", "", file.read(), flags=re.M)
    rows = re.findall(r"^(.*?) \| (\d+) \| (\{.*\}) `([^`]*)`$", text, re.M)
    yield [ported.Source(name, source, "T", [json.loads(data)], int(left)) for name, left, data, source in rows]


def keep(folder, source, why):
    os.makedirs(folder, exist_ok=True)
    with open(os.path.join(folder, f"{source.name}.cpp"), "w", encoding="utf-8") as file:
        file.write(f"// {why}\n{source.text}")


def tried(asked):
    from runner import ported
    passed, failed = 0, 0
    for sources in table(asked.rows) if asked.rows else generated(asked):
        found = ported.finds(sources, asked.program)
        for source, why in found:
            print(f"FAILED {source.name}: {why}" if asked.keep else f"FAILED {source.name}: {why}\n{source.text}", flush=True)
            if asked.keep:
                keep(asked.keep, source, why)
        passed, failed = passed + len(sources) - len(found), failed + len(found)
    print(f"{passed} passed, {failed} failed")
    return 1 if failed else 0


def hostile(asked):
    """Each hostile source by the tool itself."""
    from runner.groups import port
    trial = Trial(asked.program, is_whole=False)
    trial.begin("port")
    port.HOSTILE = tuple(port.unported.hostile(b""))
    port.try_hostile(trial)
    return trial.end()


def main(asked):
    if asked.hostile:
        return hostile(asked)
    from runner import ported
    asked.program = os.path.abspath(asked.program)
    return ported.in_large_stack(lambda: tried(asked))


if __name__ == "__main__":
    command.choose_interpreter(os.path.abspath(__file__))
    script.run(words(), main)
