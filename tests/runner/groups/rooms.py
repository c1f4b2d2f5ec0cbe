"""The Python code of `tools/` and `tests/`: imports between the rooms go one way, as the page Architecture draws it, and modules and functions are short. Each module says
what it is, each function of the package has types and is named somewhere, and pyflakes reports nothing. The groups have their rows in tests/README.md."""
import ast
import collections
import re
import shutil
import subprocess

from runner import groups
from runner.trial import ROOT, read
from runner.write import lists, rooms

# The most lines of a module and of a function.
MODULE, FUNCTION = 300, 40


def modules():
    """Each module that is kept, by its path."""
    kept = subprocess.run(["git", "ls-files", "-co", "--exclude-standard", "tools/*.py", "tests/*.py"], cwd=ROOT, capture_output=True, text=True, check=False).stdout.split()
    return {path: read(path) for path in sorted(set(kept))}


def defined(kinds=ast.FunctionDef):
    """Each function, or what else is defined, with its module's path."""
    return [(path, it) for path, text in modules().items() for it in ast.walk(ast.parse(text)) if isinstance(it, kinds)]


def try_rooms(trial):
    below = rooms.imports()
    trial.check_equal("rooms that import each other in a ring", sorted(set(below) - set(rooms.order(below))), [])
    trial.check_equal("rooms that import the module of scripts", sorted(room for room in below if "script" in below[room]), [])
    for paths in rooms.modules().values():
        for path in paths:
            trial.check(f"{path} says what it is", rooms.what_it_is(path).endswith("."))


def try_sizes(trial):
    trial.check_equal(f"modules of more than {MODULE} lines", [path for path, text in modules().items() if text.count("\n") > MODULE], [])
    trial.check_equal(f"functions of more than {FUNCTION} lines", [f"{path}: {it.name}" for path, it in defined() if it.end_lineno - it.lineno >= FUNCTION], [])


def try_named(trial):
    """Each function and class is named besides where it is defined; those of tests/cases are found by unittest, and those that groups begin with `try_` by the runner."""
    named = collections.Counter(word for text in modules().values() for word in re.findall(r"\w+", text))
    called = {it.name for path, it in defined() if path.startswith("tests/runner/groups/") and it.name[:4] == "try_" and (it.decorator_list or len(it.args.args) == 1)}
    alone = [f"{path}: {it.name}" for path, it in defined((ast.FunctionDef, ast.ClassDef)) if named[it.name] == 1 and it.name[:2] != "__" and not path.startswith("tests/cases/") and it.name not in called]
    trial.check_equal("functions and classes that nobody names", alone, [])


def try_types(trial):
    """Each function of the package has types, which the group module checks by `mypy --strict`, where it is installed."""
    own = [(path, it, it.args) for path, it in defined() if path.startswith(rooms.PACKAGE)]
    bare = [f"{path}: {it.name}" for path, it, of in own if not it.returns or any(not one.annotation and one.arg not in ("self", "cls") for one in [*of.args, *of.kwonlyargs])]
    trial.check_equal("functions of the package without types", bare, [])


def try_pyflakes(trial):
    flakes = shutil.which("pyflakes3") or shutil.which("pyflakes")
    if not flakes:
        trial.note("pyflakes is not installed, so unused names were not looked for")
        return
    said = subprocess.run([flakes, "tools", "tests"], cwd=ROOT, capture_output=True, text=True, check=False).stdout.splitlines()
    trial.check_equal("what pyflakes says", said, [])


def try_lists(trial):
    lists.check(trial, rooms.LISTS, "rooms")
    lists.check(trial, groups.LISTS, "groups")
