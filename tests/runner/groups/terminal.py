"""`./tapa` on a terminal: explanations, how long a run has taken, Ctrl-C, the signals by which the program ends, and what is said of an unproved program."""
import contextlib
import os
import pty
import shutil
import signal
import subprocess
import sys
import time
from pathlib import Path

from runner.copied import repository, run_script
from runner.groups.tools import EXPLAINED
from runner.trial import ROOT, read

# Stands in for the program: it takes more than a second and tells a limit, or goes on until a signal ends it.
SLOW = "#!/bin/sh\nsleep 1.3\necho 'tapa: more than 5 ticks' >&2\nexit 7\n"
QUICK = "#!/bin/sh\necho 'tapa: more than 5 ticks' >&2\nexit 7\n"
ENDLESS = "#!/bin/sh\nexec sleep 60\n"
CLEAR = "\r\x1b[K"

USAGE = "tapa: usage: tapa build|run|cosim|plan|gen|vcd"


class Shown:
    """A command that has a terminal of its own, as one that a person types, and what stands there."""

    def __init__(self, words, folder):
        self.number, self.ours = pty.fork()
        if self.number == 0:
            os.chdir(folder)
            for number in (signal.SIGINT, signal.SIGHUP):
                signal.signal(number, signal.SIG_DFL)  # as a shell gives them to a command in front; who runs these tests may ignore them
            os.execvp(words[0], words)
        self.text = b""

    def read(self):
        try:
            piece = os.read(self.ours, 4096)
        except OSError:
            piece = b""
        self.text += piece
        return piece

    def until(self, text, seconds=20):
        """Reads until a text stands there."""
        end = time.monotonic() + seconds
        while text not in self.text and time.monotonic() < end and self.read():
            pass
        return text in self.text

    def end(self):
        """What the system tells of its end, and all that stands there."""
        while self.read():
            pass
        _, status = os.waitpid(self.number, 0)
        os.close(self.ours)
        return status, self.text.decode("utf-8", "replace").replace("\r\n", "\n")


def with_terminal(words, folder):
    """A command whose standard error is a terminal: its status, its output, and what the terminal got."""
    ours, theirs = pty.openpty()
    ran = subprocess.Popen(words, cwd=folder, stdin=subprocess.DEVNULL, stdout=subprocess.PIPE, stderr=theirs)
    os.close(theirs)
    out, shown = ran.stdout.read(), b""
    with contextlib.suppress(OSError):
        while piece := os.read(ours, 4096):
            shown += piece
    os.close(ours)
    return ran.wait(), out.decode(), shown.decode().replace("\r\n", "\n")


def put_program(folder, text):
    path = f"{folder}/crates/tapa_cli/out/tapa_cli"
    Path(path).write_text(text, encoding="utf-8")
    os.chmod(path, 0o755)


def try_clock(trial, folder):
    """A run of more than a second shows its seconds on a terminal, and takes them away; in a pipe, and of a short run, there is none of it."""
    words = ["./tapa", "run", "F.cpp", "T"]
    put_program(folder, SLOW)
    shown = Shown(words, folder)
    is_shown = shown.until(b"1 s\r")
    status, text = shown.end()
    behind = text.split("1 s\r")[-1]
    trial.check("a long run tells its seconds on a terminal", is_shown and status >> 8 == 7 and behind.startswith(f"{CLEAR}tapa: more than 5 ticks\n      = "), f"   {status} {text!r}")
    trial.check_equal("and not in a pipe", run_script(words, folder), (7, "", ["tapa: more than 5 ticks"]))
    put_program(folder, QUICK)
    status, text = Shown(words, folder).end()
    trial.check("a short run tells no seconds", status >> 8 == 7 and text.startswith("tapa: more than 5 ticks\n") and "\x1b" not in text, f"   {text!r}")


def try_signals(trial, folder):
    """Ctrl-C ends the program and the script by its signal, without a traceback; other signals go on to the program."""
    put_program(folder, ENDLESS)
    for name, number in (("Ctrl-C", signal.SIGINT), ("SIGTERM", signal.SIGTERM), ("SIGHUP", signal.SIGHUP)):
        shown = Shown(["./tapa", "run", "F.cpp", "T"], folder)
        shown.until(b"1 s\r")
        if number == signal.SIGINT:
            os.write(shown.ours, b"\x03")
        else:
            os.kill(shown.number, number)
        trial.check_that(f"{name} ends a run by its signal", shown.end(), lambda status, text: os.WIFSIGNALED(status) and os.WTERMSIG(status) == number and "Traceback" not in text)


def try_messages(trial):
    """Tools that call the program pass on what it tells, on a terminal with its explanation."""
    for tool in ("report", "profile", "look", "testbench"):
        words = ["env", f"TAPA={trial.program}", sys.executable, f"tools/{tool}.py", "examples/vector_add.cpp", "VecAdd", "examples/systolic.json"]
        status, out, shown = with_terminal(words, ROOT)
        front = "tapa: examples/systolic.json: J2 scalars.n\n      = `scalars` has no `n`, a `uint64_t`: `VecAdd` needs a number for it\n"
        trial.check(f"{tool}.py explains a message on a terminal", status in (1, 3) and out == "" and front in shown and "Traceback" not in shown, f"   {status} {shown}")


def try_asked(trial, folder, words, bare):
    """Explanations that are asked for in a pipe, and what is shown below the refusal of words that are no command."""
    explained = (1, "", EXPLAINED.splitlines())
    trial.check_equal("./tapa --explain in a pipe", run_script(["./tapa", "--explain", *words[1:]], folder), explained)
    trial.check_equal("TAPA_EXPLAIN=1 in a pipe", run_script(["env", "TAPA_EXPLAIN=1", *words], folder), explained)
    trial.check_equal("TAPA_EXPLAIN=0 in a pipe", run_script(["env", "TAPA_EXPLAIN=0", *words], folder), bare)
    for asked in (["--help"], ["--version"], [], ["help"], ["run", "--help"]):
        status, out, lines = run_script(["./tapa", "--explain", *asked], folder)
        is_shown = "      = tapa run SRC TOP [DATA] [--workers W] [--steps N]" in lines and any(line.startswith("      |   --steps N ") for line in lines) and lines[-1] == "      = docs/COMMAND.md"
        trial.check(f"./tapa --explain {' '.join(asked)} shows the commands with their words", (status, out, lines[0]) == (2, "", USAGE) and is_shown, f"   {status} {lines}")
        trial.check_equal(f"./tapa {' '.join(asked)} in a pipe", run_script(["./tapa", *asked], folder), (2, "", [USAGE]))
    Path(f"{folder}/VERSION").write_text("1.2.3\n", encoding="utf-8")
    trial.check("./tapa --explain --version shows the version", "      = tapa 1.2.3" in run_script(["./tapa", "--explain", "--version"], folder)[2])


def try_script(trial):
    """`./tapa` explains on a terminal alone, and keeps statuses, output and bare messages."""
    folder = repository(trial, "repository")
    words = ["./tapa", "run", "examples/refused/conditional_read.cpp", "Skip"]
    bare = (1, "", EXPLAINED.split("\n")[:1])
    trial.check_equal("./tapa on a terminal", with_terminal(words, folder), (1, "", EXPLAINED))
    trial.check_equal("./tapa without a terminal", run_script(words, folder), bare)
    try_asked(trial, folder, words, bare)
    said = with_terminal(["./tapa", "run", "examples/bad_token.cpp", "BadToken"], folder)
    is_explained = said[2].startswith("tapa: Consumer$1 bad token on numbers\n      = Consumer$1 met the end of a transaction") and said[2].endswith("      = docs/REFUSALS.md, Deadlock\n")
    trial.check("./tapa with a report", said[:2] == (8, read("examples/bad_token.out")) and is_explained, f"   {said}")
    os.makedirs(f"{folder}/below/bin")
    os.symlink("../../tapa", f"{folder}/below/bin/tapa")
    trial.check_equal("./tapa by a symbolic link", run_script(["below/bin/tapa", *words[1:]], folder), bare)


def try_unproved(trial):
    """Where there is no proved program, `./tapa` runs the unproved one that was built of the sources, and says so in each call; where there is none, it
    says what is missing, with a status of its own."""
    folder = repository(trial, "unproved", has_program=False)
    words = ["./tapa", "run", "examples/refused/conditional_read.cpp", "Skip"]
    missing = run_script(words, folder, path="/usr/bin:/bin")
    trial.check("./tapa without the kit", missing[:2] == (125, "") and "Rattle kit" in missing[2][0], f"   {missing}")
    os.makedirs(f"{folder}/out/unproved")
    Path(f"{folder}/out/unproved/stamp").write_text(os.path.abspath(trial.program) + "\n", encoding="utf-8")
    said = run_script(words, folder)
    trial.check("./tapa says that what runs is unproved", said[:2] == (1, "") and said[2][0].startswith("tapa: UNPROVED: "), f"   {said}")
    trial.check_equal("./tapa with an unproved program tells what is told", said[2][1:], EXPLAINED.split("\n")[:1])
    shutil.copy(f"{folder}/tapa", f"{folder}/below")
    os.makedirs(f"{folder}/other")
    shutil.move(f"{folder}/below", f"{folder}/other/tapa")
    copied = run_script([f"{folder}/other/tapa", *words[1:]], folder)
    trial.check("a copy of ./tapa without its sources says so", copied[:2] == (125, "") and "has no sources" in copied[2][0], f"   {copied}")


def try_all(trial):
    folder = repository(trial, "terminal")
    try_clock(trial, folder)
    try_signals(trial, folder)
    try_messages(trial)
    try_script(trial)
    try_unproved(trial)
