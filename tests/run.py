#!/usr/bin/env python3
"""Tries a built `tapa` on the cases of this folder, on the documents' tables and on the examples.

    tests/run.py [PROGRAM] [--only W | --failed] [-j N]   for example crates/tapa_cli/out/tapa_cli; without PROGRAM the one that `./tapa` runs
    tests/run.py --list                                   the groups of cases, each with what it tries
    tests/run.py write crates | rooms | groups            puts lists into docs/ARCHITECTURE.md and this folder's README.md
    tests/run.py write laws                               puts the list of theorems into docs/THEOREMS.md
    tests/run.py write chain                              draws the chain of theorems, docs/chain.svg
    tests/run.py write reference PROGRAM                  puts circuits and what they show into crates/vlog_tests
    tests/run.py write mistakes PROGRAM                   records what is shown of the mistakes in cases/mistakes
    tests/run.py house [--shrink]                         what of the crates is not as CONTRIBUTING.md wants it

Each case that fails is printed. At the end stands a summary of at most 20 lines, whose last one is `N passed, M failed`; the status is 1 where M is not 0.
tests/README.md says how cases are written.
"""
import sys

sys.dont_write_bytecode = True
from runner import groups, rounds  # noqa: E402
from runner.write import chain, crates, house, laws, lists, recorded, rooms  # noqa: E402
from vechaqir import script  # noqa: E402
from vechaqir.host import program  # noqa: E402

WRITTEN = {"crates": crates, "rooms": rooms, "groups": groups, "laws": laws}
DRAWN = {"chain": chain.main, "mistakes": recorded.record_mistakes, "reference": recorded.record_circuits}


def write(name, more):
    """Writes a list into its pages, or a file."""
    if name in WRITTEN and not more:
        for page, text in WRITTEN[name].LISTS.items():
            lists.put(page, name, text())
    elif name not in DRAWN or DRAWN[name](more) == 2:
        raise script.Usage(f"what is written is one of {', '.join([*WRITTEN, *DRAWN])}, and reference and mistakes take a program")


def chosen(asked):
    """The groups that are tried."""
    failed = rounds.kept()["failed"]
    found = [name for name in groups.names() if asked.only in name and (not asked.failed or name in failed)]
    if not found and not asked.failed:
        raise script.Usage(f"no group has {asked.only} in its name: {', '.join(groups.names())}")
    return found


@script.word("words", metavar="PROGRAM | write NAME | house", nargs="*", help="the program, or what is written or told")
@script.word("--only", metavar="W", default="", help="tries the groups whose name has W")
@script.word("--failed", action="store_true", help="tries the groups that failed when they were tried last")
@script.word("-j", dest="jobs", metavar="N", type=script.number(1, 64), default=1, help="tries N groups at once; some measure time, and may fail beside others")
@script.word("--list", action="store_true", help="prints the groups")
@script.word("--shrink", action="store_true", help="with house: takes exceptions away that hold no more")
def main(asked):
    if asked.list:
        print("\n".join(f"{name:12} {groups.row(name)}" for name in groups.names()))
        return 0
    if asked.words[:1] == ["write"]:
        return write("".join(asked.words[1:2]), asked.words[2:])
    if asked.words == ["house"]:
        return house.main(asked.shrink)
    if len(asked.words) > 1:
        raise script.Usage("there is one program")
    names = chosen(asked)
    return rounds.run(program.given(asked.words[0]) if asked.words else program.find(), names, not asked.only and not asked.failed, asked.jobs)


if __name__ == "__main__":
    script.call(main)
