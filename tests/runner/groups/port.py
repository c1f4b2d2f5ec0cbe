"""Sources as TAPA users write them (`cases/port/`) through `tools/port.py`: what is left of each, and that each ported source reports the tokens and cells of its original on
three data files. g++ compiles the original. Seven ported sources are compared in cycles with twins by hand. Defects of older versions, hostile sources and 12 generated sources are
tested, too."""
import json
import os
import re
import subprocess
import sys

from runner.made import unported
from runner.trial import CASES, ROOT

FOLDER = os.path.join(CASES, "port")
HAND = os.path.join(FOLDER, "hand")
SCRIPT = os.path.join(ROOT, "tools", "port.py")
# Debian's Python, for which libclang's binding is installed
SYSTEM = "/usr/bin/python3"
# Sources with floats, and the bits after the point with which their data are exact.
FIXED = {"jacobi": 8, "dot_product": 8}
# Hostile sources that take less than a second; `tests/stress/port.py --hostile` has all of them.
HOSTILE = ("cut_early", "cut_in_a_word", "cut_at_the_end", "empty", "binary", "templates", "recursion", "own_header")
# The least number of sources that are ported without a mark.
LEAST = 25


def names():
    return sorted(it[:-4] for it in os.listdir(FOLDER) if it.endswith(".cpp"))


def top_of(name):
    """The last function of a source is its top task."""
    with open(os.path.join(FOLDER, f"{name}.cpp"), encoding="utf-8") as file:
        return re.findall(r"^void (\w+)\(", file.read(), re.M)[-1]


def asked(trial, words):
    """What tools/port.py answers."""
    interpreter = SYSTEM if os.access(SYSTEM, os.X_OK) else sys.executable
    ran = subprocess.run([interpreter, SCRIPT, *words], capture_output=True, text=True, errors="replace", check=False, env={**os.environ, "TAPA": trial.program}, stdin=subprocess.DEVNULL)
    return ran.returncode, ran.stdout, ran.stderr


def is_there(trial):
    """Whether libclang's binding and g++ are there; if not, a note says that nothing was tried."""
    status, _, told = asked(trial, [os.path.join(FOLDER, "cache.cpp"), "CacheTop"])
    if status and "python3-clang" in told:
        trial.note("python3-clang is not installed, so no source was ported")
        return False
    if subprocess.run(["sh", "-c", "command -v g++"], capture_output=True, check=False).returncode:
        trial.note("g++ is not installed, so no ported source was compared with its original")
        return False
    return True


def data_files(trial, name):
    with open(os.path.join(FOLDER, f"{name}.json"), encoding="utf-8") as file:
        return [trial.put(f"{name}.{at}.json", json.dumps(it)) for at, it in enumerate(json.load(file))]


def try_left(trial, name, bits):
    """What is left of a source that is not ported as a whole."""
    with open(os.path.join(FOLDER, f"{name}.left"), encoding="utf-8") as file:
        wanted = file.read()
    _, told, _ = asked(trial, [os.path.join(FOLDER, f"{name}.cpp"), top_of(name), *bits, "--write", os.path.join(trial.folder.name, "left.cpp")])
    trial.check_equal(f"{name}: what is left", told.replace(f"{FOLDER}{os.sep}", ""), wanted)


def try_source(trial, name):
    """What is left of a source, or the comparison with its original; whether nothing is left."""
    bits = ["--fixed", str(FIXED[name])] if name in FIXED else []
    if os.path.exists(os.path.join(FOLDER, f"{name}.left")):
        try_left(trial, name, bits)
        return False
    files = data_files(trial, name)
    trial.check(f"{name} has three data files", len(files) >= 3)
    status, told, said = asked(trial, [os.path.join(FOLDER, f"{name}.cpp"), top_of(name), *bits, "--check", *files])
    trial.check(f"{name}: its port and its original report the same", status == 0 and told.count(" 0 are not\n") == len(files), told + said)
    return True


def cycles(trial, source, top, name):
    """What a circuit carries in memories on the data of a source, and its cycles over all of them."""
    circuit = trial.put("twin.v", trial.run(["build", source, top]).out)
    shown, total = [], 0
    for file in data_files(trial, name):
        lines = trial.run(["cosim", circuit, file]).out.decode().splitlines()
        shown += [it for it in lines if it.startswith("memory")]
        total += int(lines[-1].split()[-1]) if lines and lines[-1].startswith("done ") else 1 << 30
    return shown, total


def try_twin(trial, name):
    """A ported source next to the one that is written by hand (`hand/`): the same memories, and at most a twentieth more cycles."""
    bits = ["--fixed", str(FIXED[name])] if name in FIXED else []
    path, top = os.path.join(trial.folder.name, "twin.cpp"), top_of(name)
    asked(trial, [os.path.join(FOLDER, f"{name}.cpp"), top, *bits, "--write", path])
    (left, ported), (right, by_hand) = cycles(trial, path, top, name), cycles(trial, os.path.join(HAND, f"{name}.cpp"), top, name)
    trial.check_equal(f"{name}: what its port and the source by hand leave in memories", left, right)
    trial.check(f"{name}: its port takes {ported} cycles, and by hand {by_hand}", by_hand < 1 << 30 and ported <= by_hand * 1.05)


def try_compared(trial, what, *words):
    """Small or generated sources, many of them in one native program, by `tests/stress/port.py`."""
    ran = subprocess.run([SYSTEM if os.access(SYSTEM, os.X_OK) else sys.executable, os.path.join(ROOT, "tests", "stress", "port.py"), trial.program, *words], capture_output=True, text=True, check=False, stdin=subprocess.DEVNULL)
    trial.check(what, ran.returncode == 0 and ran.stdout.endswith(" passed, 0 failed\n"), ran.stdout + ran.stderr)


def try_hostile(trial):
    """Each hostile source ends in a sentence, within ten seconds of CPU time by the tool's own limit."""
    with open(os.path.join(FOLDER, "bfs.cpp"), "rb") as file:
        sources = unported.hostile(file.read())
    for name in HOSTILE:
        path = trial.put(f"{name}.cpp", sources[name])
        status, told, said = asked(trial, [path, "Bfs", "--write", os.path.join(trial.folder.name, "hostile.out.cpp")])
        trial.check(f"the hostile source {name} ends in a sentence", status == 1 and "Traceback" not in said and (told + said).count("\n") <= 9 and path in told + said, f"   {status} {told[-500:]} {said[-500:]}")


def try_all(trial):
    if not is_there(trial):
        return
    try_compared(trial, "small sources with a construct each", "--rows", os.path.join(FOLDER, "small.rows"))
    try_compared(trial, "generated sources", "--seed", "gate", "--count", "12")
    try_hostile(trial)
    ported = sum(try_source(trial, name) for name in names())
    for it in sorted(os.listdir(HAND)):
        try_twin(trial, it[:-4])
    trial.check(f"{LEAST} sources are ported without a mark", ported >= LEAST, f"   {ported}")
