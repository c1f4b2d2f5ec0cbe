"""Another name for a constant, a task, a parameter, a stream or a variable, only if each use then still means what it meant."""
import re
from typing import List, Optional, Tuple

from ..host.program import NoProgram, Program, TimedOut
from ..language.lexemes import RESERVED
from ..language.scopes import Name
from . import diagnose
from .analysis import Analysis
from .protocol import REQUEST_FAILED, Wrong

IDENTIFIER = re.compile(r"[A-Za-z_][A-Za-z0-9_]*")


def places(known: Analysis, name: Name) -> List[Tuple[int, int]]:
    """The offsets of all uses of a name, its declaration among them."""
    return [(known.view.words[at].begin, known.view.words[at].end) for at in known.occurrences(name)]


def meaning(known: Analysis) -> List[int]:
    """For each lexeme the one that declares it; -1 for one that stands for no declared name."""
    found = (known.declared(at) for at in range(len(known.view.words)))
    return [it.at if it else -1 for it in found]


def replaced(text: bytes, places: List[Tuple[int, int]], word: str) -> bytes:
    found = bytearray(text)
    for begin, end in reversed(places):
        found[begin:end] = word.encode()
    return bytes(found)


def renamed(known: Analysis, name: Name, word: str, asked: Optional[Program]) -> List[Tuple[int, int]]:
    """The offsets of what is to be replaced; Wrong with a sentence if the new name cannot stand there, or if the program then refuses a text that it accepts now."""
    if not IDENTIFIER.fullmatch(word):
        raise Wrong(REQUEST_FAILED, f"`{word}` is not a name: letters, digits and `_`, the first one not a digit")
    if word in RESERVED:
        raise Wrong(REQUEST_FAILED, f"`{word}` is a reserved word")
    found = places(known, name)
    after = Analysis(replaced(known.source.text, found, word), known.source.path)
    before, behind = meaning(known), meaning(after)
    for at, (old, new) in enumerate(zip(before, behind)):
        if old != new:
            line = known.source.place(known.view.words[at].begin).line
            raise Wrong(REQUEST_FAILED, f"`{word}` has another meaning in line {line}, which would change")
    told = refused(known, after, asked)
    if told:
        raise Wrong(REQUEST_FAILED, f"with `{word}` the source is refused: {told}")
    return found


def refused(known: Analysis, after: Analysis, asked: Optional[Program]) -> str:
    """What the program says of the new text, if it accepts the old one."""
    try:
        if asked and diagnose.is_source(known.source.text) and diagnose.first(asked, known.source.text, known, None) is None:
            message = diagnose.first(asked, after.source.text, after, None)
            return f"line {message.place.line}, {message.code} {message.text}" if message and message.place else ""
    except (NoProgram, TimedOut):
        pass
    return ""
