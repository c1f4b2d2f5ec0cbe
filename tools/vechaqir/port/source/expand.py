"""The text that is parsed: with its own headers, without conditional directives, and without macros."""
import re
from typing import List

from ..faults import Refused
from . import headers, macros
from .clang import Parsed
from .mapped import Edit, Mapped

DIRECTIVE = re.compile(r"^[ \t]*#[ \t]*(?:if|ifdef|ifndef|elif|else|endif|error|warning|line)\b(?:\\\n|[^\n])*\n?", re.M)


def chosen(source: Mapped) -> Mapped:
    """The text without what conditional directives leave out, and without these."""
    if not DIRECTIVE.search(source.text):
        return source
    edits: List[Edit] = []
    for begin, end in Parsed(source.text).skipped():
        begin = source.text.rfind("\n", 0, begin) + 1
        behind = source.text.find("\n", end)
        edits.append(Edit(begin, len(source.text) if behind < 0 else behind + 1, ""))
    kept = source.applied(edits)
    active = re.search(r"^[ \t]*#[ \t]*error\b[^\n]*", kept.text, re.M)
    if active:
        raise Refused(active.start(), f"`{active[0].strip()}`")
    return kept.applied([Edit(it.start(), it.end(), "") for it in DIRECTIVE.finditer(kept.text)])


def expanded(path: str) -> Mapped:
    """The text of a source as Clang gets it."""
    return macros.expanded(chosen(headers.joined(path)))
