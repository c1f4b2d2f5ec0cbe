"""What the source itself calls a construct that the language does not have, so that a message has the reader's own name."""
import itertools
import re
from typing import Callable, Dict, Optional

from ..language.lexemes import RESERVED
from ..language.matching import View, angle
from .base import Case

# Words of TAPA and of libraries: none of them is a name of the reader's.
FOREIGN = RESERVED | set("tapa std hls istream ostream istreams ostreams stream streams mmap mmaps async_mmap hmap immap ommap task invoke join detach seq".split())
MOST = 40


def own(view: View, at: int) -> str:
    """The name at a lexeme, if it is one of the reader's."""
    return view.text(at) if view.is_name(at) and view.text(at) not in FOREIGN else ""


def quoted(view: View, at: int, construct: str) -> str:
    """The word near a lexeme that the construct itself names."""
    return next((view.text(it) for it in (at, at - 1, at + 1, at + 2) if view.text(it) and f"`{view.text(it)}`" in construct), "")


def declared(view: View, at: int) -> str:
    """The name behind a type: that of `tapa::mmap<int>& m` at any of its words."""
    there = at
    while there > 0 and there > at - 8 and view.text(there) not in ("tapa", "(", ";", "{", "hls"):
        there -= 1
    opening = next((it for it in range(there, there + 4) if view.text(it) == "<"), None)
    end = angle(view, opening) if opening is not None else None
    return "" if end is None else next((own(view, it) for it in range(end + 1, end + 4) if view.text(it) not in ("&", "*", "&&")), "")


def item(view: View, at: int) -> str:
    """The name of the constant, function or type around a lexeme."""
    return next((it.name for it in view.items if it.begin <= at < it.end and it.kind != "task" and it.name not in FOREIGN), "")


def task(view: View, at: int) -> str:
    found = view.task(at)
    return found.name if found else ""


def before(view: View, at: int) -> str:
    """The name before the bracket around a lexeme."""
    return own(view, (view.enclosing(at) or 0) - 1)


def streams(view: View, at: int) -> str:
    """A parameter of streams, where it is declared and where an element of it is used."""
    return own(view, view.open.get(at - 1, 0) - 1) if view.text(at) == "." else declared(view, at)


def qualified(view: View, at: int) -> str:
    """A word of TAPA with its namespace."""
    name = at + 2 if view.text(at) == "tapa" else at
    return f"tapa::{view.text(name)}"


def word(view: View, at: int) -> str:
    """The lexeme at the place, whatever it is."""
    return view.text(at)


def digits(view: View, at: int) -> str:
    """A number with a part that is a lexeme of its own."""
    left, right = (at - 1 if view.kind(at - 1) == "number" else at), (at + 1 if view.kind(at + 1) == "number" else at)
    return "".join(view.text(it) for it in range(left, right + 1))


def separated(view: View, at: int) -> str:
    """A number with a digit separator, as far as it goes."""
    return view.text(at - 1) + "".join(itertools.takewhile(lambda it: it.isalnum() or it == "'", view.text(at)))


def near(view: View, at: int) -> str:
    """The name next to a lexeme: the last one before it in its statement, or the one behind it."""
    left = at - (view.text(at) == "(")
    while left > at - 5 and view.text(left) not in (";", "{", "}", "(", ",") and not own(view, left):
        left -= 1
    return next((own(view, it) for it in (left, at + 1, at + 2) if own(view, it)), "")


def thrown(view: View, at: int) -> str:
    return next((view.text(it) for it in (at, at - 1) if view.text(it) in ("throw", "try", "catch", "new", "delete", "this")), "")


def operator(view: View, at: int) -> str:
    return next((view.text(it) for it in (at, at - 1) if view.text(it) in ("not", "and", "or", "xor", "bitand", "bitor", "compl")), "")


# How the reader's name of a construct is found, if it is not the word that the construct names, the item or the name next to it.
BY_CONSTRUCT: Dict[str, Callable[[View, int], str]] = {
    "a parameter of streams": streams, "a computed number of streams": declared, "a memory by reference": declared, "`hls::stream`": declared,
    "a depth at a parameter": declared, "a stream's name in braces": lambda view, at: own(view, at - 1) or declared(view, at), "`const` before a stream or a memory": lambda view, at: declared(view, at + 2),
    "a second chain": task, "a statement in an upper-level task": task, "a loop in an upper-level task": task, "`static` or `inline` before a task": lambda view, at: own(view, at + 2) or own(view, at + 1),
    "a computed size": before, "a size that is not written": before, "a name for an instance": word, "a character": word, "a digit separator": separated, "an operator after `<<`": word,
    "`tapa::reg` and other functions of `tapa`": qualified, "a number with a point": digits, "exceptions and memory of a program": thrown, "words for operators": operator,
}


def own_word(case: Case, construct: str) -> str:
    """What the source calls a construct: a word of it, the name that an item declares, a number, or the name next to it."""
    view, at = case.view, case.at
    if construct in BY_CONSTRUCT:
        found = BY_CONSTRUCT[construct](view, at)
    elif quoted(view, at, construct):
        found = quoted(view, at, construct)
    elif view.regions[at] in ("file", "other") and item(view, at):
        found = item(view, at)
    else:
        found = view.text(at) if view.kind(at) == "number" else near(view, at)
    return found if len(found) <= MOST else ""


def several(construct: str) -> bool:
    """Whether the words of a construct are of several things."""
    return construct.startswith(("words ", "exceptions ", "printing ")) or " and other " in construct


def refused(construct: str, found: Optional[str] = "") -> str:
    """That a construct is not in the language, with what the source calls it."""
    named = f"`{found}`"
    if found and named in construct and re.match(r"`[^`]+`(, `| and )", construct):
        return f"{named} is not in the language"
    what = construct if not found or named in construct else f"{named}: {construct}"
    return f"{what} {'are' if several(construct) else 'is'} not in the language"
