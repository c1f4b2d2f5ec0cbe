"""A text that an editor has open: its changes, and places as the protocol counts them and as the tools do."""
import bisect
import os
import re
import urllib.parse
from typing import Any, Dict, List, Optional

from .protocol import INVALID_PARAMS, Wrong, member, number_at, text_at

Position = Dict[str, int]
Range = Dict[str, Position]
# Units of a column, of those that the protocol has; the first one that a client offers is taken, and utf-16 if it offers none.
UNITS = ("utf-8", "utf-16", "utf-32")
MOST_CHARACTERS = 8_000_000


def path_of(uri: str) -> Optional[str]:
    """The path of a file's URI; None for another scheme."""
    scheme, _, rest = uri.partition("://")
    if scheme != "file" or "\0" in rest or "%00" in rest:
        return None
    return urllib.parse.unquote(rest[rest.find("/"):] if "/" in rest else "") or None


def uri_of(path: str) -> str:
    return "file://" + urllib.parse.quote(os.path.abspath(path))


def units_of(text: str, units: str) -> int:
    """How many units of a column a text has."""
    if units == "utf-8":
        return len(text.encode("utf-8", "replace"))
    return len(text) + sum(it > "\uffff" for it in text) if units == "utf-16" else len(text)


class Document:
    """An open text. Tools read its bytes; the protocol speaks of lines and columns in the client's units."""

    def __init__(self, uri: str, version: int, text: str, units: str = "utf-16") -> None:
        self.uri, self.version, self.units = uri, version, units
        self.path = path_of(uri)
        self.put(text)

    def put(self, text: str) -> None:
        if len(text) > MOST_CHARACTERS:
            raise Wrong(INVALID_PARAMS, f"a text of more than {MOST_CHARACTERS:,} characters")
        self.text = text
        self.bytes = text.encode("utf-8", "replace")
        self.starts = [0] + [found.end() for found in re.finditer(r"\r\n|\r|\n", text)]
        self.begins = self.starts if len(self.bytes) == len(text) else self.byte_starts()

    def byte_starts(self) -> List[int]:
        """The offset in bytes of each line."""
        found, bounds = [0], self.starts + [len(self.text)]
        for begin, end in zip(bounds, bounds[1:]):
            found.append(found[-1] + len(self.text[begin:end].encode("utf-8", "replace")))
        return found[:-1]

    def line(self, number: int) -> str:
        """The characters of a line, its end among them."""
        end = self.starts[number + 1] if number + 1 < len(self.starts) else len(self.text)
        return self.text[self.starts[number]:end]

    # ---- places

    def index(self, place: Any) -> int:
        """The index of the character at a position; one past the end of a line is that end, and one past the text its end."""
        line, column = number_at(place, "line"), number_at(place, "character")
        if line >= len(self.starts):
            return len(self.text)
        text = self.line(line).rstrip("\r\n")
        if text.isascii() or self.units == "utf-32":
            return self.starts[line] + min(column, len(text))
        at = 0
        while at < len(text) and column > 0:
            column -= units_of(text[at], self.units)
            at += 1
        return self.starts[line] + at

    def offset(self, place: Any) -> int:
        """The offset in bytes of a position."""
        at = self.index(place)
        line = bisect.bisect_right(self.starts, at) - 1
        return self.begins[line] + len(self.text[self.starts[line]:at].encode("utf-8", "replace"))

    def position(self, offset: int) -> Position:
        """The position of an offset in bytes."""
        line = max(bisect.bisect_right(self.begins, offset) - 1, 0)
        front = self.bytes[self.begins[line]:max(offset, 0)].decode("utf-8", "ignore")
        return {"line": line, "character": units_of(front, self.units)}

    def range(self, begin: int, end: int) -> Range:
        return {"start": self.position(begin), "end": self.position(max(begin, end))}

    # ---- changes

    def changed(self, change: Any) -> str:
        """The text after one change of `textDocument/didChange`."""
        text = text_at(change, "text")
        if "range" not in change or change["range"] is None:
            return text
        begin, end = self.index(member(change, "range", "start")), self.index(member(change, "range", "end"))
        return self.text[:begin] + text + self.text[max(begin, end):]
