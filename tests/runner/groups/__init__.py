"""The groups of cases: each module here is a group of the same name, and the first sentence of its docstring is its row of tests/README.md."""
import ast
import importlib
import os
from pathlib import Path

from runner.write import lists

# This one looks at what the program reported in all others.
LAST = "messages"


def names():
    """The groups in the order in which they are tried."""
    found = [name[:-3] for name in os.listdir(os.path.dirname(__file__)) if name.endswith(".py") and name != "__init__.py"]
    return sorted(found, key=lambda name: (name == LAST, name))


def row(name):
    """What a group tests, in a sentence."""
    return lists.sentence(ast.get_docstring(ast.parse(Path(os.path.dirname(__file__), f"{name}.py").read_text(encoding="utf-8"))))


def tries(group):
    """The functions of a group, in their order, each with its arguments behind the trial: `try_all` alone if it has one, else each `try_..` that takes nothing else, or is marked by `each`."""
    if hasattr(group, "try_all"):
        yield group.try_all, ()
        return
    for name, it in list(vars(group).items()):
        if name.startswith("try_") and it.__module__ == group.__name__:
            every = getattr(it, "each", [()] if it.__code__.co_argcount == 1 else [])
            yield from ((it, one if isinstance(one, tuple) else (one,)) for one in (every() if callable(every) else every))


def tried(trial):
    """Tries the group of a trial."""
    for function, given in tries(importlib.import_module(f"runner.groups.{trial.group}")):
        function(trial, *given)


def table():
    return "| group | what it tests |\n|---|---|\n" + "".join(f"| {name} | {row(name)} |\n" for name in names())


LISTS = {"tests/README.md": table}
