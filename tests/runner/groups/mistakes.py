"""Mistakes of designers (`cases/mistakes/`): what a pipe shows of each, what a terminal and `--explain` show, and the text of the module's exception, which pytest shows.
`tests/run.py write mistakes PROGRAM` records them anew, to be read."""
import glob
import json
import os
import re
import shlex
import subprocess
import sys
import warnings
from pathlib import Path

import vechaqir
from runner.groups.module import interpreter_with
from runner.groups.terminal import with_terminal
from runner.trial import CASES, ROOT, read
from vechaqir.explain.explainer import Command, Explainer
from vechaqir.host import data
from vechaqir.host.program import Program

PARTS = ("pipe", "terminal", "pytest")
# Of each so many mistakes one is shown by `./tapa --explain` and on a terminal too, and not only by what they call.
EACH = 12
RAISED = ("vechaqir.Refused: ", "vechaqir.Stopped: ")
TEST = read("tests/cases/files/mistake.template")


class Mistake:
    """A mistake: its name, its files, the words of the command, and what was recorded of it."""

    def __init__(self, text):
        self.name, _, rest = text.partition("\n")
        files, _, rest = rest.partition("---\n$")
        self.files = [(part.partition("\n")[0], part.partition("\n")[2]) for part in files.split("--- ")[1:]]
        line, _, rest = rest.partition("\n")
        self.line, self.words = line.strip(), shlex.split(line)
        self.kept = {part.partition(":\n")[0]: part.partition(":\n")[2] for part in rest.split("\n# ")[0:] for part in [part.removeprefix("# ")] if part.strip()}
        self.kept = {name: body.rstrip("\n") for name, body in self.kept.items()}

    def put(self, folder):
        for name, text in self.files:
            Path(folder, name).write_text(text, encoding="utf-8")

    def text(self, shown):
        """The mistake with what is shown of it."""
        files = "".join(f"--- {name}\n{text}" for name, text in self.files)
        return f"=== {self.name}\n{files}---\n$ {self.line}".rstrip() + "\n" + "".join(f"# {name}:\n{shown[name]}\n" for name in PARTS)


def paths():
    return sorted(glob.glob(os.path.join(CASES, "mistakes", "*.cases")))


def mistakes(path):
    return [Mistake(text) for text in read(os.path.relpath(path, ROOT)).split("=== ")[1:]]


# ---- what is shown


def plain(text):
    """A text without the path of the repository and that of the folder in which a command runs."""
    return re.sub(r" in /\S*/mistake\b", " in FOLDER", text.replace(f"{ROOT}/", "")).rstrip("\n")


def piped(trial, mistake, folder):
    said = trial.run(mistake.words, folder)
    return said.status, f"{said.err.decode()}[{said.status}]"


def explained(trial, mistake, status, err):
    explainer = Explainer(Command(mistake.words), Program(trial.program, False))
    lines = [it for line in err.splitlines()[:-1] for it in (line, *explainer.safely(line))]
    return "\n".join(lines + explainer.ended(status) + [f"[{status}]"])


def inputs(words):
    """Scalars and memories of a data file; None if it is none that the module can be given."""
    try:
        found = data.read(words[0]) if words else data.Data()
        return found.scalars, found.memories
    except (OSError, ValueError):
        return None


def called(trial, mistake):
    """The text of the exception or the warning of a call of the module; `-` if no call does the same."""
    words = mistake.words
    options = {words[at][2:]: int(words[at + 1]) for at in range(len(words) - 1) if words[at] in ("--steps", "--workers") and words[at + 1].isdecimal()}
    plain_words = words[1:words.index(next((it for it in words if it.startswith("--")), words[-1]))] if any(it.startswith("--") for it in words) else words[1:]
    mode = words[words.index("--plan") + 1] if "--plan" in words else "fit"
    is_run = words[:1] == ["run"] and len(plain_words) >= 2 and set(words[1:]) - set(plain_words) <= {"--steps", "--workers", *map(str, options.values())}
    given = inputs(plain_words[2:]) if is_run else None
    if not (given or words[:1] == ["plan"] and len(plain_words) == 3):
        return "-"
    with warnings.catch_warnings(record=True) as told:
        warnings.simplefilter("always")
        try:
            design = vechaqir.Design(plain_words[0], plain_words[1], Program(trial.program, False))
            design.run(*given, **options) if is_run else design.plan(json.loads(read(os.path.abspath(plain_words[2]))), mode)
        except Exception as why:  # whatever it is, pytest shows its text
            return f"{type(why).__module__}.{type(why).__name__}: {why}".removeprefix("builtins.")
    return "\n".join(f"{it.category.__module__}.{it.category.__name__}: {it.message}" for it in told) or "-"


def shown_of(trial, mistake):
    """What each place shows of a mistake."""
    folder = os.path.join(trial.folder.name, "mistake")
    os.makedirs(folder, exist_ok=True)
    for name in os.listdir(folder):
        os.remove(os.path.join(folder, name))
    mistake.put(folder)
    status, err = piped(trial, mistake, folder)
    before, kept = os.getcwd(), os.environ.get("TAPA_EXPLAIN")
    os.environ["TAPA_EXPLAIN"] = "1"
    os.chdir(folder)
    try:
        return {"pipe": plain(err), "terminal": plain(explained(trial, mistake, status, err)), "pytest": plain(called(trial, mistake))}
    finally:
        os.chdir(before)
        os.environ.pop("TAPA_EXPLAIN")
        if kept is not None:
            os.environ["TAPA_EXPLAIN"] = kept


# ---- trials


def try_shown(trial, mistake, at):
    shown = shown_of(trial, mistake)
    for name in PARTS:
        trial.check_equal(f"{mistake.name}: {name}", shown[name], mistake.kept.get(name, ""))
    said = shown["terminal"]
    is_whole = "      = " in said and "no explanation" not in said and ("instead: " in said or "      |   " in said or mistake.words[:1] not in (["run"], ["plan"], ["build"], ["cosim"]))
    trial.check(f"{mistake.name}: what and what instead", is_whole, said)
    if at % EACH == 0:
        folder = os.path.join(trial.folder.name, "mistake")
        words = [sys.executable, os.path.join(ROOT, "tools", "explain.py"), "--run", trial.program, *mistake.words]
        ran = subprocess.run(words, cwd=folder, stdin=subprocess.DEVNULL, capture_output=True, text=True, check=False)
        trial.check_equal(f"{mistake.name}: by --explain", plain(f"{ran.stderr}[{ran.returncode}]"), said)
        status, _, told = with_terminal(words, folder)
        trial.check_equal(f"{mistake.name}: on a terminal", plain(f"{told}[{status}]"), said)


def try_pytest(trial, found):
    """pytest shows the text of each exception, line by line."""
    python = interpreter_with("pytest")
    if not python:
        trial.note("there is no pytest here, so what it shows was not tried")
        return
    folder = os.path.join(trial.folder.name, "pytest")
    chosen = [it for it in found if it.words[:1] == ["run"] and it.kept["pytest"].startswith(RAISED) and not any(word.startswith("--") for word in it.words)]
    tests = ["import vechaqir\n"]
    for at, mistake in enumerate(chosen):
        home = os.path.join(folder, str(at))
        os.makedirs(home)
        mistake.put(home)
        scalars, memories = inputs([os.path.join(home, it) for it in mistake.words[3:4]]) or ({}, {})
        tests.append(TEST.format(at=at, source=os.path.join(home, mistake.words[1]), top=mistake.words[2], scalars=scalars, memories=memories))
    path = os.path.join(folder, "test_mistakes.py")
    Path(path).write_text("".join(tests), encoding="utf-8")
    environment = {**os.environ, "TAPA": trial.program, "PYTHONPATH": os.path.join(ROOT, "tools"), "PYTHONDONTWRITEBYTECODE": "1"}
    ran = subprocess.run([python, "-m", "pytest", "-q", "-p", "no:cacheprovider", path], cwd=folder, env=environment, capture_output=True, text=True, check=False)
    parts = re.split(r"^_+ test_(\d+) _+$", ran.stdout, flags=re.M)
    shown = dict(zip(map(int, parts[1::2]), parts[2::2]))
    for at, mistake in enumerate(chosen):
        lines = [plain(line[len("E "):].strip()).replace(os.path.join(folder, str(at), ""), "") for line in shown.get(at, "").splitlines() if line.startswith("E ")]
        trial.check_equal(f"pytest shows {mistake.name}", lines, [line.strip() for line in mistake.kept["pytest"].splitlines()])


def try_all(trial):
    found = [mistake for path in paths() for mistake in mistakes(path)]
    for at, mistake in enumerate(found):
        try_shown(trial, mistake, at)
    try_pytest(trial, found)
    trial.check("there are 69 mistakes", len(found) >= 69, f"   {len(found)}")
