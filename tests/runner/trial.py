"""A built program, and what has been found of it."""
import json
import os
import shlex
import subprocess
import sys
import tempfile
from pathlib import Path

ROOT = os.path.dirname(os.path.dirname(os.path.dirname(os.path.abspath(__file__))))
TESTS = os.path.join(ROOT, "tests")
CASES = os.path.join(TESTS, "cases")

# The most seconds of one command.
SECONDS = 300


def read(path):
    """The text of a file of the repository."""
    return Path(ROOT, path).read_text(encoding="utf-8")


def sources(*folders):
    """The sources of these folders of the repository, by their paths."""
    return [f"{folder}/{name}" for folder in folders for name in sorted(os.listdir(os.path.join(ROOT, folder))) if name.endswith(".cpp")]


def first_words(path):
    """The words of `tapa run` in the first line of an example: its source, its top task, and its data."""
    return shlex.split(read(path).split("\n")[0].removeprefix("// tapa run "))


def data_of(words):
    """The data of a command's words, if they name a data file."""
    return next((json.loads(read(it)) for it in words if it.endswith(".json")), {})


def each(of):
    """Has a function of a group called for each of these, or of what a function gives: with it as an argument behind the trial, with several where it is a tuple."""
    def marked(function):
        function.each = of
        return function
    return marked


class Said:
    """What a command answered."""

    def __init__(self, status, out, err):
        self.status, self.out, self.err = status, out, err

    def __str__(self):
        out, err = (part.decode("utf-8", "replace") for part in (self.out, self.err))
        return f"status {self.status}\n{shorten(out)}{shorten(err)}"


def shorten(text):
    """At most some twenty lines of a text, and the front of each."""
    lines = text.splitlines()
    more = [f".. {len(lines) - 20} more lines"] if len(lines) > 20 else []
    return "".join(f"      {line[:200]}\n" for line in lines[:20] + more)


def answer(words, **given):
    """What a program answers to these words, by the arguments of `subprocess.run`."""
    try:
        ran = subprocess.run(words, **{"stdin": subprocess.DEVNULL, "stdout": subprocess.PIPE, "stderr": subprocess.PIPE, "timeout": SECONDS, "check": False, **given})
    except subprocess.TimeoutExpired:
        return Said("none: it had not ended", b"", b"")
    return Said(ran.returncode, ran.stdout or b"", ran.stderr or b"")


class Trial:
    def __init__(self, program, is_whole=True):
        self.program = os.path.abspath(program)
        self.is_whole = is_whole
        self.passed, self.failed = 0, 0
        self.group, self.notes = "", []
        # every line of standard error that the program wrote
        self.lines = set()
        self.folder = tempfile.TemporaryDirectory(prefix="tapa-tests-")

    def begin(self, group):
        self.group = group

    def end(self):
        self.folder.cleanup()
        print(f"{self.passed} passed, {self.failed} failed")
        return 1 if self.failed else 0

    def check(self, name, holds, told=""):
        """Counts a case, and prints it where it fails."""
        if holds:
            self.passed += 1
        else:
            self.failed += 1
            print(f"FAILED {self.group}: {name}\n{told}".rstrip(), flush=True)

    def check_that(self, name, found, holds):
        """Counts a case by whether what was found, of which several are several arguments, is as it has to be; it is shown where it is not."""
        self.check(name, holds(*found) if isinstance(found, (tuple, list)) else holds(found), f"   {found}")

    def check_equal(self, name, got, wanted):
        self.check(name, got == wanted, f"   wanted:\n{shorten(str(wanted))}   got:\n{shorten(str(got))}")

    def note(self, text):
        """Says what could not be tried here, so that nothing is skipped in silence."""
        self.notes.append(text)
        print(f"NOTE {self.group}: {text}", file=sys.stderr, flush=True)

    def put(self, name, text):
        """Writes a file of the trial's own folder."""
        path = os.path.join(self.folder.name, name)
        Path(path).write_bytes(text if isinstance(text, bytes) else text.encode())
        return path

    def run(self, words, folder=None, before=None, **streams):
        """Runs the program with these words, in the trial's own folder if no other is given; `before` is called in its process, which may then
        not come to begin, so that what it writes does not count as told."""
        said = answer([self.program, *words], cwd=folder or self.folder.name, preexec_fn=before, restore_signals=False, **streams)
        if before is None:
            self.keep(said)
        return said

    def tool(self, name, *words, given=""):
        """What a script of tools/ answers, which calls this program: its status, standard output and standard error."""
        known = {**os.environ, "TAPA": self.program}
        ran = subprocess.run([sys.executable, os.path.join("tools", name), *words], cwd=ROOT, input=given.encode(), env=known, capture_output=True, check=False)
        return ran.returncode, ran.stdout.decode("utf-8", "replace"), ran.stderr.decode("utf-8", "replace")

    def keep(self, said):
        """Keeps the lines of standard error, each of which is to stand in docs/COMMAND.md."""
        self.lines.update(said.err.decode("utf-8", "replace").splitlines())

    def told(self, source, top="T", steps="100000"):
        """What is told of a source: `CODE LINE:COL`, with the limit for C11, or `accepted`."""
        self.put("r.cpp", source)
        said = self.run(["run", "r.cpp", top, "--steps", steps])
        err = said.err.decode("utf-8", "replace")
        if said.status == 1 and said.out == b"" and err.count("\n") == 1 and err.startswith("tapa: r.cpp:"):
            line, col, text = err[len("tapa: r.cpp:"):-1].split(":", 2)
            words = text.split()
            code = f"C11 {words[-1]}" if words[0] == "C11" else words[0]
            return f"{code} {line}:{col}"
        if said.status == 3 and err.startswith("tapa: {}: J2 ") or said.status in (0, 7, 8):
            return "accepted"
        return str(said)
