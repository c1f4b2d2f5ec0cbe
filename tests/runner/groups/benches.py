"""Testbenches of `tools/testbench.py` in Icarus Verilog: each example passes, with memories that answer in each way, and twenty changed circuits fail. One testbench runs in
Verilator. `tests/stress/verilated.py PROGRAM` makes all of them by Verilator."""
import os
import random
import re
import shutil
import subprocess

from runner.trial import ROOT, first_words, sources

WAYS = ("none", "late", "random", "data")
# The circuits that are made wrong, and how many of each; none has a detached task, whose streams may go on.
WRONG = (("vector_add", 8), ("run_length", 6), ("feedback", 6))
CHANGES = ((" + ", " - "), (" - ", " + "), (" == ", " < "), (" & ", " | "), (" | ", " & "), (" ^ ", " & "))


def words_of(name):
    """Source, top task and data of an example, by its first line."""
    return first_words(f"examples/{name}.cpp")


def in_icarus(trial, *texts):
    """What a simulation of these texts in Icarus Verilog prints."""
    paths = [trial.put(f"bench{at}.v", text) for at, text in enumerate(texts)]
    program = os.path.join(trial.folder.name, "bench")
    ran = subprocess.run(["iverilog", "-g2005", "-gno-xtypes", "-Wall", "-Wno-timescale", "-o", program, *paths], capture_output=True, text=True, check=False)
    if ran.returncode or ran.stderr:
        return ran.stderr
    return subprocess.run(["vvp", "-n", program], capture_output=True, text=True, timeout=60, check=False).stdout


def try_examples(trial):
    """Each example passes with memories of one kind, the kinds by turns, and with registers for a device."""
    for at, path in enumerate(sources("examples")):
        name = os.path.basename(path).removesuffix(".cpp")
        status, text, err = trial.tool("testbench.py", *words_of(name), "--waits", WAYS[at % len(WAYS)])
        said = in_icarus(trial, text) if status == 0 else err
        trial.check(f"the testbench of {name}, memories {WAYS[at % len(WAYS)]}", said.startswith("PASS: ") and "FAIL" not in said, f"   {said[:500]}")
    for way in WAYS:
        status, text, err = trial.tool("testbench.py", *words_of("cannon"), "--waits", way, "--device", "examples/devices/two_halves.json", "--plan", "split")
        said = in_icarus(trial, text) if status == 0 else err
        trial.check(f"the testbench of cannon on two dies, memories {way}", said.startswith("PASS: "), f"   {said[:500]}")


def changed(some, text):
    """A circuit with one line changed: an operator, or a number."""
    lines = text.split("\n")
    at = some.randrange(len(lines))
    old, new = some.choice(CHANGES)
    if old in lines[at]:
        lines[at] = lines[at].replace(old, new, 1)
    elif re.search(r"'d\d+;", lines[at]):
        lines[at] = re.sub(r"(\d+)'d(\d+);", lambda it: f"{it[1]}'d{(int(it[2]) + 1) % 2 ** int(it[1])};", lines[at], count=1)
    return "\n".join(lines)


def without_cycles(report):
    return re.sub(rb"(?m)^done \d+$", b"done", report)


def wrong_circuits(trial, name, count):
    """Changed circuits of an example whose simulation shows something else than its run, with the words of the testbench."""
    words, some, found = words_of(name), random.Random(name), []
    text = trial.run(["build", *words[:2]], ROOT).out.decode()
    right = without_cycles(trial.run(["run", *words], ROOT).out)
    while len(found) < count:
        other = changed(some, text)
        if other != text and other not in found:
            said = trial.run(["cosim", trial.put("wrong.v", other), *words[2:], "--cycles", "2000"], ROOT, before=lambda: None)
            if said.status in (0, 7) and without_cycles(said.out) != right:
                found.append(other)
    return found


def try_wrong(trial):
    for name, count in WRONG:
        _, bench, _ = trial.tool("testbench.py", *words_of(name), "--alone")
        for at, text in enumerate(wrong_circuits(trial, name, count)):
            said = in_icarus(trial, bench, text)
            trial.check(f"wrong circuit {at} of {name}", said.startswith("FAIL: ") and "PASS" not in said, f"   {said[:500]}")


def try_words(trial):
    """Wrong words, files and runs are told in a line."""
    for words, status, part in ((["--help"], 0, "tools/testbench.py SRC TOP"), ([], 2, ""), (["x.cpp", "T", "--waits", "never"], 2, "--waits: invalid choice"),
                                (["none.cpp", "T"], 1, "none.cpp: No such file"), (["examples/vector_add.cpp", "VecAdd"], 1, "tapa: {}: J2 scalars.n"),
                                (["examples/vector_add.cpp", "VecAdd", "examples/systolic.json"], 1, "tapa: examples/systolic.json: J2 scalars.n"),
                                (["examples/too_shallow.cpp", "TooShallow", "--device", "examples/devices/two_slots.json"], 1, "the run stops"),
                                (["examples/refused/divisor.cpp", "Top"], 1, ": C9 divisor")):
        got, out, err = trial.tool("testbench.py", *words)
        trial.check(f"testbench.py {' '.join(words)}", got == status and part in out + err and "Traceback" not in err, f"   {got} {err[:300]}")


def try_verilator(trial, name, way):
    """Verilator makes a program of an example's testbench, without a warning, and it passes."""
    _, text, _ = trial.tool("testbench.py", *words_of(name), "--waits", way)
    folder = os.path.join(trial.folder.name, f"verilated_{name}")
    words = ["verilator", "--binary", "--top-module", "bench", "--Mdir", folder, "-CFLAGS", "-O0", trial.put("bench.v", text)]
    ran = subprocess.run(words, capture_output=True, text=True, check=False)
    trial.check(f"Verilator takes a testbench of {name} without a warning", ran.returncode == 0 and "%Warning" not in ran.stderr, ran.stderr[-1000:])
    said = subprocess.run([f"{folder}/Vbench"], capture_output=True, text=True, check=False).stdout if ran.returncode == 0 else ""
    trial.check(f"the testbench of {name} passes in Verilator", said.startswith("PASS: "), said[:500])
    shutil.rmtree(folder, ignore_errors=True)


def try_all(trial):
    try_words(trial)
    if shutil.which("iverilog") and shutil.which("vvp"):
        try_examples(trial)
        try_wrong(trial)
    else:
        trial.note("there is no Icarus Verilog here, so testbenches were not tried in it")
    version = subprocess.run(["verilator", "--version"], capture_output=True, text=True, check=False).stdout if shutil.which("verilator") else ""
    if re.match(r"Verilator (5\.00[6-9]|5\.0[1-9]|5\.[1-9]|[6-9])", version):
        try_verilator(trial, "run_length", "random")
    else:
        trial.note("there is no Verilator from 5.006 on here, so testbenches were not tried in it")
