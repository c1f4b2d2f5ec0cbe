"""The names that a source declares, and from where to where each can be used."""
from typing import Dict, List, NamedTuple, Optional

from . import kinds
from .kinds import Kind
from .matching import View
from .syntax import Task

NONE = Kind(0, False, "")


class Name(NamedTuple):
    """A declared name. Its sort is `constant`, `task`, `istream`, `ostream`, `mmap`, `scalar`, `local`, `array` or `stream`; it can be used from the lexeme `begin` up to
    the one before `end`, and is declared by the lexeme `at`."""

    name: str
    sort: str
    kind: Kind
    is_const: bool
    at: int
    begin: int
    end: int


def block_end(view: View, at: int) -> int:
    """Where the block ends in which a local is declared: behind its brace, or behind the statement of a `for` in whose head it stands."""
    bracket = view.enclosing(at)
    if bracket is None:
        return len(view.words)
    end = view.close.get(bracket, len(view.words) - 1) + 1
    if view.text(bracket) != "(":
        return end
    while end < len(view.words) and view.text(end) not in ("{", ";"):
        end = view.close.get(end, end) + 1
    return view.close.get(end, end) + 1


def declarators(view: View, at: int) -> List[int]:
    """The indices of the names of one declaration, from the first name on."""
    found = []
    while view.is_name(at):
        found.append(at)
        while view.text(at) not in (",", ";", ")", "{", "}", ":", ""):
            at = view.close.get(at, at) + 1
        if view.text(at) != ",":
            break
        at += 1
    return found


def locals_of(view: View, begin: int, end: int) -> List[Name]:
    """The variables that are declared between two lexemes of a task's body."""
    found = []
    at = begin
    while at < end:
        is_const = view.text(at) in ("const", "constexpr")
        declared = kinds.kind_at(view.words, at + is_const)
        if not declared or not (view.starts(at) or view.text(at - 1) == "(" and view.text(at - 2) == "for"):
            at += 1
            continue
        kind, name = declared
        for it in declarators(view, name):
            sort = "array" if view.text(it + 1) == "[" else "local"
            found.append(Name(view.text(it), sort, kind, is_const, it, it, block_end(view, it)))
        at = name
    return found


def names_of_task(view: View, task: Task) -> List[Name]:
    """The parameters, streams and variables of a task."""
    first, last = (view.source.index_at(offset) for offset in (task.body[0], task.body[1] - 1))
    found = []
    for parameter in task.parameters:
        at = view.source.index_at(view.source.lines.offset(parameter.place))
        found.append(Name(parameter.name, parameter.direction, parameter.kind, parameter.is_const, at, at, last + 1))
    for stream in task.streams:
        at = view.source.index_at(view.source.lines.offset(stream.place))
        found.append(Name(stream.name, "stream", stream.kind, False, at, at, last + 1))
    return found + locals_of(view, first + 1, last)


def names(view: View) -> List[Name]:
    """All names of a source in no order."""
    end = len(view.words)
    found = []
    for item in view.items:
        if item.kind in ("constant", "task") and item.name:
            at = next((it for it in range(item.begin, item.end) if view.text(it) == item.name), item.begin)
            kind = view.source.values[item.name][1] if item.name in view.source.values else NONE
            found.append(Name(item.name, item.kind, kind, item.kind == "constant", at, at, end))
    for task in view.source.tasks.values():
        found += names_of_task(view, task)
    return found


def visible(view: View, at: int) -> Dict[str, Name]:
    """The names that can be used at a lexeme; of several of one name the innermost."""
    found: Dict[str, Name] = {}
    for name in sorted(names(view), key=lambda it: (it.sort not in ("constant", "task"), it.begin)):
        if name.begin < at < name.end:
            found[name.name] = name
    return found


def declared_elsewhere(view: View, text: str, at: int) -> Optional[Name]:
    """A declaration of a name that can't be used at a lexeme: first one of the same task, then one of the file."""
    task = view.task(at)
    may = [it for it in sorted(names(view), key=lambda it: it.at) if it.name == text]
    return next((it for it in may if task and view.task(it.at) is task), next((it for it in may if it.sort in ("constant", "task")), None))
