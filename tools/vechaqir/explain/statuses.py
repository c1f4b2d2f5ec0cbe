"""What messages without a place mean: no plan, files that are too long, writes that fail, memory that runs out."""
import re
from typing import List, NamedTuple

from .. import tables
from . import pages
from .base import Why
from .command import Command
from .refusals import lines_of


class Status(NamedTuple):
    """A message by its pattern, which may say that no plan was found: what is wrong, why, and what to do. `{1}` is what the first group of the pattern has."""

    is_plan: bool
    pattern: str
    what: str
    reason: str
    instead: str


STATUSES = [Status(bool(sort), *row) for sort, *row in tables.rows("explain/statuses.rows")]


def filled(text: str, found: "re.Match[str]") -> str:
    return re.sub(r"\{(\d)\}", lambda it: found[int(it[1])], text)


def explained(line: str, command: Command, shortage: List[str], is_file: bool) -> List[str]:
    """The lines below a message; none if it is another one. `shortage` says which resource is short, and `is_file` whether the device is a file."""
    told = line[len("tapa: "):]
    for it in STATUSES:
        found = re.fullmatch(it.pattern, told)
        if not found:
            continue
        if not it.is_plan:
            return lines_of(Why([filled(it.what, found)], it.instead, [], "docs/COMMAND.md", it.reason), "")
        words = f"{command.source or 'SRC'} {command.top or 'TOP'} {command.device if command.device and is_file else 'DEV'}"
        is_short = any(part in line for line in shortage for part in (", and all slots have ", ", and no slot has ", "no slot is open"))
        instead = "raise `percent`, take a larger device, or divide the largest task" if is_short else it.instead
        lines = lines_of(Why([filled(it.what, found), *shortage], instead, [], "docs/REFUSALS.md, No plan", it.reason), "")
        if is_short:
            return lines
        return lines[:-1] + [f"      = or: search a placement by `{pages.tool('place.py')} {words} > placed.json`, and plan with this file, whose pins leave nothing to search", lines[-1]]
    return []
