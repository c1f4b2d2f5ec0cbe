"""The messages of `tapa` on standard error, each taken apart (docs/COMMAND.md, "Statuses and messages")."""
import re
from typing import NamedTuple, Optional

from ..language.lexemes import Place

PLACED = re.compile(r"tapa: (.+):(\d+):(\d+): ([A-Z]\d+)\b ?(.*)")
KEYED = re.compile(r"tapa: (.+): ([JKVX]\d)(?: (.*))?")
WAITS = re.compile(r"tapa: (\S+) (waits to read|waits to write|bad token on) (\S+)")


class Message(NamedTuple):
    """A message. Its sort is `place`, `key`, `waits`, `usage` or `status`; a rule's code, the file, the place and the rest of the line where it has them: the text of a rule,
    a key or a name, or for `waits` the verb. `label` and `stream` are those of an instance that has not ended."""

    line: str
    sort: str
    file: str = ""
    place: Optional[Place] = None
    code: str = ""
    text: str = ""
    label: str = ""
    stream: str = ""


def parse(line: str) -> Optional[Message]:
    """A message of the program, or None where a line is none."""
    if not line.startswith("tapa: ") or line.startswith("tapa: UNPROVED: "):
        return None
    placed = PLACED.fullmatch(line)
    if placed:
        place = Place(int(placed[2]), int(placed[3])) if len(placed[2]) + len(placed[3]) < 19 else Place(1, 1)
        return Message(line, "place", placed[1], place, placed[4], placed[5])
    waits = WAITS.fullmatch(line)
    if waits:
        return Message(line, "waits", text=waits[2], label=waits[1], stream=waits[3])
    keyed = KEYED.fullmatch(line)
    if keyed:
        return Message(line, "key", keyed[1], None, keyed[2], keyed[3] or "")
    return Message(line, "usage" if line.startswith("tapa: usage: ") else "status")
