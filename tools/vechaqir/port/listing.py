"""What has to change in a TAPA source before the program accepts it, found all at once by the constructs of docs/FROM_TAPA.md, without libclang."""
import os
import re
import resource
import signal
from typing import Iterator, List, NamedTuple

from ..explain import pages
from ..host.faults import Fault
from ..language import lexemes, patterns
from ..language.lexemes import Place
from ..language.matching import View
from ..language.source import Source, parse

DIRECTIVE = re.compile(r"#\s*(\w+)")
# A byte that no C++ source has.
FOREIGN = re.compile(rb"[\0-\x08\x0e-\x1f]")


class Change(NamedTuple):
    """Something that has to change: its place, the construct, and what to write instead."""

    place: Place
    construct: str
    instead: str


def directives(source: Source) -> Iterator[Change]:
    """The `#` lines that the program refuses or that bring what it does not read."""
    for lexeme in lexemes.every(source.text):
        if lexeme.kind != "directive":
            continue
        text = lexeme.text.strip()
        place = source.place(lexeme.begin + len(lexeme.text) - len(lexeme.text.lstrip(" \t\r")))
        word = (DIRECTIVE.match(text) or ["", ""])[1]
        header = re.match(r'#\s*include\s*"([^"]+)"', text)
        if header and os.path.isfile(os.path.join(os.path.dirname(source.path or ""), header[1])):
            yield Change(place, f"the header `{header[1]}`", "what it declares, in this file: `#include` lines are skipped")
        elif word not in ("include", "pragma"):
            macro = re.match(r"#\s*define\s+\w+(\()?", text)
            construct = "another directive" if not macro else "a `#define` with parameters" if macro[1] else "a `#define` of a number"
            yield Change(place, construct, pages.rows()[construct].instead if construct in pages.rows() else "")


def changes(source: Source) -> List[Change]:
    """All that has to change in a source, in its order, and each construct once a line. What is within functions that are no tasks, structs and templates is not scanned."""
    view = View(source)
    found = list(directives(source))
    rows = pages.rows()
    seen = set()
    for at in range(len(view.words) + 1):
        if view.regions[at] == "other":
            continue
        for pattern in patterns.standing(view, at):
            place = source.place(view.words[at].begin if at < len(view.words) else len(source.text))
            if (pattern.construct, place.line) not in seen:
                seen.add((pattern.construct, place.line))
                found.append(Change(place, pattern.construct, rows[pattern.construct].instead if pattern.construct in rows else ""))
            break
    return sorted(found)


def bounded(path: str, seconds: int) -> None:
    """Lets what follows end by a fault after some seconds of CPU time."""

    def end(*_: object) -> None:
        raise Fault(f"{path}: the list takes more than {seconds} seconds of CPU time; --seconds N allows more")

    signal.signal(signal.SIGXCPU, end)
    resource.setrlimit(resource.RLIMIT_CPU, (seconds, resource.getrlimit(resource.RLIMIT_CPU)[1]))


def listed(path: str, seconds: int) -> List[str]:
    """The list of a source, a line for each construct."""
    with open(path, "rb") as file:
        text = file.read()
    foreign = FOREIGN.search(text)
    if foreign:
        line = text.count(b"\n", 0, foreign.start()) + 1
        raise Fault(f"{path}:{line}: the byte 0x{text[foreign.start()]:02x} is not of a C++ source")
    bounded(path, seconds)
    return [f"{path}:{it.place.line}:{it.place.column}: {it.construct}: {it.instead}" for it in changes(parse(text, path))]
