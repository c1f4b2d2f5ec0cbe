"""A library that refuses allocations of a program, one of them or one and all after it, and what the program then answers.

The library takes the place of the C library's `malloc` and its kin (`LD_PRELOAD`). It counts every allocation, and writes the number when the program
ends through `_exit`, as `tapa` does, or through `exit`.
"""
import collections
import concurrent.futures
import os
import shutil
import subprocess
from pathlib import Path

from runner.trial import CASES, answer

SECONDS = 30

LIBRARY = os.path.join(os.path.dirname(__file__), "refusals.c")
FILES = os.path.join(CASES, "allocations")


def lines_of(source, top, data, device, text):
    """A line of each command that reads a source, its data, its device and its circuit."""
    plans = [["plan", source, top, device, *mode] for mode in ([], ["--plan", "exact"], ["--plan", "split"])]
    return [["run", source, top, *data], ["run", source, top, *data, "--workers=2"], ["build", source, top], ["build", source, top, "--device", device], *plans,
            ["cosim", text, *data], ["cosim", text, *data, "--vcd"]]


# Every command on a vector addition and on a diamond; a dump and `gen` beside them.
LINES = [*lines_of("add.cpp", "VecAdd", ["add.json"], "add_device.json", "add.v"), *lines_of("diamond.cpp", "T", [], "diamond_device.json", "diamond.v"), ["vcd", "dump.vcd", "done"], ["gen", "1"]]


def put_files(trial):
    """Writes the files that LINES name, with the circuits and the dump that the program makes of them."""
    shutil.copytree(FILES, trial.folder.name, dirs_exist_ok=True)
    trial.put("add.v", trial.run(["build", "add.cpp", "VecAdd"]).out)
    trial.put("diamond.v", trial.run(["build", "diamond.cpp", "T"]).out)
    trial.put("dump.vcd", trial.run(["cosim", "diamond.v", "--vcd"]).out)


def library(trial):
    """The path of the library, or None where no C compiler makes it."""
    path = os.path.join(trial.folder.name, "refuser.so")
    if not shutil.which("cc") or subprocess.run(["cc", "-O1", "-shared", "-fPIC", "-fno-builtin", "-o", path, LIBRARY], check=False).returncode:
        trial.note("cc is not there, so no allocation was refused")
        return None
    return path


def call(trial, words, environment):
    """What the program answers to these words in this environment."""
    return answer([trial.program, *words], cwd=trial.folder.name, timeout=SECONDS, env=environment)


def allocations(trial, refuser, words):
    """How many allocations these words make."""
    count = Path(trial.folder.name, "count")
    count.unlink(missing_ok=True)
    call(trial, words, {"LD_PRELOAD": refuser, "REFUSE_COUNT": str(count)})
    return int(count.read_text(encoding="utf-8")) if count.exists() else 0


def is_allowed(said, usual):
    """The usual answer; or that memory is out, after a prefix of the usual output."""
    if (said.status, said.out, said.err) == (usual.status, usual.out, usual.err):
        return True
    return (said.status, said.err) == (9, b"tapa: out of memory\n") and usual.out.startswith(said.out)


def try_line(trial, refuser, words, each, statuses):
    """Refuses one of `each` allocations of these words in turn, alone, and one in five of those with all after it; gives how many it refused."""
    usual = call(trial, words, {})
    count = allocations(trial, refuser, words)
    trial.check(f"the allocations of {' '.join(words)} are counted", count > 0, f"   {usual}")
    tries = [(at, after) for at in range(0, count, each) for after in ([False, True] if at // each % 5 == 0 else [False])]

    def refused(this):
        at, after = this
        return call(trial, words, {"LD_PRELOAD": refuser, "REFUSE_AT": str(at), **({"REFUSE_AFTER": "1"} if after else {})})

    with concurrent.futures.ThreadPoolExecutor(os.cpu_count() or 1) as pool:
        for (at, after), said in zip(tries, pool.map(refused, tries)):
            statuses[words[0], said.status] += 1
            trial.check(f"allocation {at} of {count} is refused{' with all after it' if after else ''}: {' '.join(words)}", is_allowed(said, usual), f"   {said}")
    return len(tries)


def try_allocations(trial, each, tells=None):
    """Refuses one of `each` allocations of every line in turn; gives how many answers of each command had each status."""
    statuses = collections.Counter()
    refuser = library(trial)
    if refuser is None:
        return statuses
    put_files(trial)
    for words in LINES:
        tries = try_line(trial, refuser, words, each, statuses)
        if tells:
            tells(f"{' '.join(words)}: {tries} allocations refused")
    return statuses
