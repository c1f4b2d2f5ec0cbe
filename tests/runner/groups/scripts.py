"""Every script of tools/: it is executable, answers `--help`, and never ends in a traceback, whatever its words, files and streams are."""
import glob
import json
import os
import random
import subprocess
from pathlib import Path

from runner.trial import ROOT, each, read
from vechaqir import script
from vechaqir.host import device
from vechaqir.script import UNEXPECTED

# Those that build, install or prove something whatever they are given, or run many circuits; only their `--help` is tried.
LONG = ("unproved.py", "in_parts.py", "check_memories.py", "check_verilog.sh", "install", "release.sh")
PIECES = ["void T(", "tapa::istream<int>& q", ") {", "}", "{", '{"rows": 1,', '"slots": [', "]", "stream q: 1 2", "slot 0 0: 1 2", "$var wire 1 ! x $end", "#0", "1!", "$enddefinitions $end", "module t_T (", "endmodule",
          "\xff", "\x00", "tapa: A$0 waits to read q", "tapa: x.cpp:1:1: P1 x", "done 3", "1e999", "-5", "[[", "#define N", "struct", "/*", "\"", "\n", "\n", "\n", " ", " "]
# What some scripts say of no words at all.
MISSING = {"floorplan": "F.plan, DEV", "graph": "F.v", "place": "SRC, TOP, DEV", "waves": "F.vcd", "written_out": "SRC"}
WORDS = ["T", "--write", "--nets", "--fill", "-1", "3", "--json", "--top", "--", "", "x", "--plan", "--places"]


def scripts():
    return sorted(glob.glob(os.path.join(ROOT, "tools", "*.py")) + glob.glob(os.path.join(ROOT, "tools", "*.sh")) + glob.glob(os.path.join(ROOT, "tools", "install")))


def run(trial, path, words, folder):
    """The status of a script and its standard error; a script that goes on for long is cut off."""
    environment = {**os.environ, "TAPA": trial.program}
    try:
        ran = subprocess.run([path, *words], cwd=folder, stdin=subprocess.DEVNULL, capture_output=True, timeout=60, env=environment, check=False)
    except subprocess.TimeoutExpired:
        return None, "it had not ended", b""
    return ran.returncode, ran.stderr.decode("utf-8", "replace"), ran.stdout


@each(lambda: scripts())
def try_help(trial, path):
    name = os.path.relpath(path, ROOT)
    trial.check(f"{name} is executable", os.access(path, os.X_OK))
    if path.endswith(".py"):
        trial.check(f"{name} begins with python3", read(name).startswith("#!/usr/bin/env python3\n"))
    trial.check(f"tools/README.md has a row of {name}", f"`{os.path.basename(path)}`" in read("tools/README.md"))
    status, err, out = run(trial, path, ["--help"], ROOT)
    trial.check(f"{name} answers --help", status == 0 and len(out) > 60 and not err, f"   {status} {err}")
    trial.check(f"{name} --help names the script that was called", not path.endswith(".py") or out.count(name.encode()) == out.count(path.encode()), f"   {out.decode()}")
    missing = MISSING.get(os.path.basename(name)[:-3])
    if missing:
        trial.check_equal(f"{name} names the words that are missing", run(trial, path, [], ROOT)[:2], (2, f"{name}: the following arguments are required: {missing} (--help says more)\n"))
    closed = subprocess.run(["sh", "-c", f"exec {path} --help | true"], cwd=ROOT, stdin=subprocess.DEVNULL, capture_output=True, check=False)
    trial.check(f"{name} --help ends where nobody reads it", b"Traceback" not in closed.stderr, f"   {closed.stderr[-300:]}")
    for stream in ("<&-", ">&-"):
        closed = subprocess.run(["sh", "-c", f"exec {path} --help {stream}"], cwd=ROOT, capture_output=True, check=False)
        trial.check(f"{name} --help {stream} ends plainly", 0 <= closed.returncode <= 9 and b"Traceback" not in closed.stderr, f"   {closed.returncode} {closed.stderr[-300:]}")


def random_file(some, folder, number):
    """A file with pieces of what the tools read."""
    path = os.path.join(folder, f"{number}.{some.choice(['cpp', 'json', 'v', 'vcd', 'txt'])}")
    Path(path).write_bytes("".join(some.choice(PIECES) for _ in range(some.randrange(40))).encode("latin-1"))
    return path


def try_words(trial, path, words, folder):
    """A call with any words: a status from 0 to 9, or 125, and no traceback."""
    status, err, *_ = run(trial, path, words, folder)
    is_right = status is not None and (0 <= status <= 9 or status == 125) and "Traceback" not in err and UNEXPECTED not in err
    trial.check(f"{os.path.relpath(path, ROOT)} {' '.join(words)} has a plain answer", is_right, f"   {status} {err[-600:]}")


@each(((1, 2),))
def try_flood(trial, seed, count):
    """So many calls of each script with files and words made at random."""
    some = random.Random(f"scripts {seed}")
    folder = os.path.join(trial.folder.name, "scripts")
    os.makedirs(folder, exist_ok=True)
    for path in scripts():
        if os.path.basename(path) in LONG:
            continue
        for number in range(count):
            files = [random_file(some, folder, number), f"{folder}/none.cpp", folder, os.path.join(ROOT, "examples/lanes.cpp")]
            words = [some.choice(files[:1] * 4 + files[1:]) if some.random() < 0.7 else some.choice(WORDS) for _ in range(some.randrange(4))]
            try_words(trial, path, words, folder)


@each(lambda: map(tuple, json.loads(read("tests/cases/tools/faults.json"))))
def try_fault(trial, name, words, files, status, told):
    """A file with a fault: the sentence names the file and what is wrong with it."""
    folder = os.path.join(trial.folder.name, "faults")
    os.makedirs(folder, exist_ok=True)
    for file, text in files.items():
        Path(folder, file).write_bytes(text.encode("latin-1"))
    got, err, out = run(trial, os.path.join(ROOT, "tools", name), words, folder)
    trial.check(f"{name} {' '.join(words)} says `{told[:80]}`", (got, out) == (status, b"") and told in err and err.count("\n") == 1, f"   {got} {err[-600:]}")


@each((("signed.py",), ("report.py", "--from", "-")))
def try_bytes(trial, name, *more):
    """A report on standard input that is no UTF-8."""
    words = [os.path.join(ROOT, "tools", name), "examples/vector_add.cpp", "VecAdd", *more]
    ran = subprocess.run(words, cwd=ROOT, input=b"stream q: \xff\n", capture_output=True, check=False)
    trial.check_equal(f"{name} on bytes", (ran.returncode, ran.stderr.decode()), (1, f"tools/{name}: standard input: byte 10 is no UTF-8\n"))


def try_unexpected(trial):
    """An exception that is not worded by the tools is reported as a fault of the script, with its place, and not as a sentence of its own."""
    told = []
    for why in (IndexError("list index out of range"), KeyError("x"), RecursionError("maximum recursion depth exceeded"), UnicodeDecodeError("utf-8", b"\xff", 0, 1, "invalid start byte")):
        try:
            raise why
        except Exception as raised:  # pylint: disable=broad-except
            told.append(script.told(raised))
    wanted = [f"{UNEXPECTED}: {name} in tests/runner/groups/scripts.py:" for name in ("IndexError", "KeyError", "RecursionError", "UnicodeDecodeError")]
    trial.check("what a script says of an exception that it did not expect", all(it.startswith(one) and it.endswith(", please report it") for it, one in zip(told, wanted)), f"   {told}")
    trial.check_equal("what a script says of exceptions of its own and of the system", [script.told(it) for it in (device.DeviceFault("d.json: x"), MemoryError(), FileNotFoundError(2, "No such file", "f"))], ["d.json: x", "out of memory", "f: No such file"])


def try_folder_that_is_gone(trial):
    """A script that is called in a folder that is no more shows its page."""
    path = os.path.join(ROOT, "tools", "waves.py")
    ran = subprocess.run(["sh", "-c", 'mkdir gone; cd gone; rmdir ../gone; exec "$0" --help', path], cwd=trial.folder.name, stdin=subprocess.DEVNULL, capture_output=True, text=True, check=False)
    trial.check("a script in a folder that is gone", ran.returncode == 0 and path in ran.stdout and not ran.stderr, f"   {ran}")
