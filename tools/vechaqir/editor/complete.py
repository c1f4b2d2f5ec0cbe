"""What may be written at the cursor: tasks, methods, names and words."""
from typing import Dict, List, NamedTuple, Optional

from ..explain.network import typed
from ..language import scopes
from ..language.scopes import Name
from ..language.syntax import Task
from . import words
from .analysis import Analysis
from .words import Word

# Kinds of items in the protocol.
METHOD, FUNCTION, VARIABLE, KEYWORD, CONSTANT, TYPE = 2, 3, 6, 14, 21, 25


class Item(NamedTuple):
    """What may be written: the name, what is put in its place, its kind, a note beside it and a sentence on it. Items of a lower rank are shown first."""

    label: str
    put: str
    kind: int
    note: str = ""
    does: str = ""
    rank: int = 1


def signature(task: Task) -> str:
    return f"{task.name}({', '.join(f'{typed(it)} {it.name}' for it in task.parameters)})"


def of_words(table: Dict[str, Word], kind: int) -> List[Item]:
    return [Item(name, word.written if kind == METHOD else name, kind, word.written, word.does, 0) for name, word in table.items()]


def before(known: Analysis, offset: int) -> int:
    """The index of the first lexeme that is not wholly before the cursor; that of the word that is being written if the cursor is at its end."""
    at = known.source.index_at(offset)
    last = known.view.words[at - 1] if at > 0 else None
    return at - 1 if last and last.end == offset and last.kind in ("name", "number") else at


def tasks(known: Analysis) -> List[Item]:
    """The tasks that may be invoked: all but the one in which the cursor is would be right, and those of the whole file are shown."""
    return [Item(it.name, it.name, FUNCTION, signature(it), rank=0) for it in known.source.tasks.values()]


def after_dot(known: Analysis, at: int) -> List[Item]:
    """Methods of the stream before a `.`, or the word of a chain."""
    view = known.view
    if view.text(at - 2) == ")":
        opening = view.open.get(at - 2, 0)
        is_chain = view.text(opening - 1) == "task" or any(view.text(it) == "task" for it in range(max(opening - 4_000, 0), opening))
        return of_words({"invoke": words.INVOKE}, METHOD) if is_chain else []
    owner = known.declared(at - 2)
    if owner is None or owner.sort == "stream":
        return of_words(words.EITHER, METHOD) if owner is None and view.is_name(at - 2) else []
    return of_words(words.methods(owner.sort), METHOD)


def argument(known: Analysis, at: int) -> Optional["tuple[Task, int]"]:
    """The task and the number of the parameter for which an argument of an invoke is written; 0 is the task itself."""
    view = known.view
    opening = view.enclosing(at)
    if opening is None or view.text(opening) != "(":
        return None
    behind = opening - 1
    if view.text(behind) == ">":
        behind = next((it for it in range(behind, max(behind - 12, 0), -1) if view.text(it) == "invoke"), behind)
    if view.text(behind) != "invoke" or view.text(behind - 1) != ".":
        return None
    commas = [it for it in range(opening + 1, at) if view.text(it) == "," and view.enclosing(it) == opening]
    task = known.source.tasks.get(view.text(opening + 1))
    return (task, len(commas)) if task and commas else (Task("", [], [], [], False, known.source.place(0), (0, 0)), 0)


def sort_of(name: Name) -> str:
    return {"istream": "istream", "ostream": "ostream", "mmap": "memory", "scalar": "scalar", "local": "variable", "array": "array", "constant": "constant", "stream": "stream"}.get(name.sort, name.sort)


def fits(name: Name, wanted: str) -> bool:
    """Whether a name is of a sort that a parameter takes."""
    return name.sort in {"istream": ("stream", "istream"), "ostream": ("stream", "ostream"), "mmap": ("mmap",)}.get(wanted, ("scalar", "constant"))


def names(known: Analysis, at: int, wanted: str = "") -> List[Item]:
    """The names that may be used at a lexeme; those that an argument takes first."""
    found = scopes.visible(known.view, at)
    return [
        Item(it.name, it.name, CONSTANT if it.sort == "constant" else VARIABLE, f"{sort_of(it)} of {it.kind.word}", rank=0 if wanted and fits(it, wanted) else 1)
        for it in found.values() if it.sort != "task"
    ]


def plain(names_of: List[str], kind: int) -> List[Item]:
    return [Item(it, it, kind, rank=2) for it in names_of]


def items(known: Analysis, offset: int) -> List[Item]:
    """All that may be written at an offset."""
    view = known.view
    at = before(known, offset)
    if view.text(at - 1) == ".":
        return after_dot(known, at)
    if view.text(at - 1) == "::" and view.text(at - 2) == "tapa":
        return of_words(words.OF_TAPA, TYPE)
    here = argument(known, at)
    if here:
        task, number = here
        if number == 0:
            return tasks(known)
        return names(known, at, task.parameters[number - 1].direction if number <= len(task.parameters) else "")
    region = view.regions[min(at, len(view.words))]
    if at < len(view.words) and view.task(at) or at > 0 and view.task(at - 1) and view.text(at - 1) != "}":
        statements = [] if region == "upper" else of_words(words.STATEMENTS, KEYWORD)
        return names(known, at) + [it._replace(rank=2) for it in statements] + plain([*words.KINDS, "tapa"], KEYWORD)
    return names(known, at) + plain([*words.FILE, *words.KINDS, "tapa"], KEYWORD)
