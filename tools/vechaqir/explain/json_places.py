"""JSON texts with the place of each value, and the place where a text stops to be JSON, as `serde_json` reads it (RFC 8259)."""
import re
from dataclasses import dataclass, field
from typing import Dict, List, Tuple

BLANKS = re.compile(r"[ \t\r\n]*")
NUMBER = re.compile(r"-?(?:0|[1-9][0-9]*)(?:\.[0-9]+)?(?:[eE][+-]?[0-9]+)?")
TEXT = re.compile(r'"((?:[^"\\\x00-\x1f]|\\(?:["\\/bfnrt]|u[0-9a-fA-F]{4}))*)"')
WORDS = {"true": "bool", "false": "bool", "null": "null"}
LEVELS = 127
ESCAPES = {"b": "\b", "f": "\f", "n": "\n", "r": "\r", "t": "\t"}


class NoJson(Exception):
    """The offset, in characters, at which a text is no JSON any more, and why."""

    def __init__(self, offset: int, why: str) -> None:
        super().__init__(why)
        self.offset, self.why = offset, why


@dataclass
class Node:
    """A value: its kind (`object`, `list`, `number`, `text`, `bool`, `null`), the offset at which it begins, its text as it is written, and what is in it."""

    kind: str
    offset: int
    text: str = ""
    members: Dict[str, "Node"] = field(default_factory=dict)
    items: List["Node"] = field(default_factory=list)


def unescaped(text: str) -> str:
    """A string's characters; of two halves of one character the character."""
    parts = re.sub(r"\\(?:u([0-9a-fA-F]{4})|(.))", lambda it: chr(int(it[1], 16)) if it[1] else ESCAPES.get(it[2], it[2]), text)
    return parts.encode("utf-16", "surrogatepass").decode("utf-16", "replace")


class Reader:
    """Reads one text from left to right."""

    def __init__(self, text: str) -> None:
        self.text = text

    def blanks(self, at: int) -> int:
        found = BLANKS.match(self.text, at)
        return found.end() if found else at

    def value(self, at: int, level: int) -> Tuple[Node, int]:
        if level > LEVELS:
            raise NoJson(at, f"lists and objects nest deeper than {LEVELS} levels")
        begin = self.text[at:at + 1]
        if begin == "{":
            return self.object(at, level)
        if begin == "[":
            return self.list(at, level)
        if begin == '"':
            return self.string(at)
        return self.number_or_word(at)

    def number_or_word(self, at: int) -> Tuple[Node, int]:
        word = re.match(r"[A-Za-z0-9_.+-]*", self.text[at:at + 400])
        written = word[0] if word else ""
        if written in WORDS:
            return Node(WORDS[written], at, written), at + len(written)
        found = NUMBER.match(self.text, at)
        if not found:
            raise NoJson(at, f"`{written}` is no value of JSON" if written else self.expected(at, "a value"))
        if re.match(r"[0-9A-Za-z_.]", self.text[found.end():found.end() + 1]):
            raise NoJson(found.end() if found[0] != "0" else at, f"`{written}` is no number of JSON: there is no `0x`, no 0 in front and no point without digits")
        if "e" in found[0].lower() or "." in found[0]:
            if float(found[0]) in (float("inf"), float("-inf")):
                raise NoJson(at, f"`{found[0]}` is beyond all numbers")
        return Node("number", at, found[0]), found.end()

    def expected(self, at: int, what: str) -> str:
        found = self.text[at:at + 1]
        if found in ("/", "#"):
            return "JSON has no comments"
        return f"{what} has to stand here, and there is {'the end of the file' if not found else repr(found)}"

    def string(self, at: int) -> Tuple[Node, int]:
        found = TEXT.match(self.text, at)
        if not found:
            raise NoJson(at, "this string has no end, a line end in it, or a `\\` that escapes nothing")
        name = unescaped(found[1])
        if "\ufffd" in name and "\ufffd" not in found[1]:
            raise NoJson(at, "this string has half a character in it")
        return Node("text", at, name), found.end()

    def list(self, at: int, level: int) -> Tuple[Node, int]:
        node = Node("list", at)
        at = self.blanks(at + 1)
        while self.text[at:at + 1] != "]":
            item, at = self.value(at, level + 1)
            node.items.append(item)
            at = self.blanks(at)
            at = self.comma(at, "]")
        return node, at + 1

    def comma(self, at: int, closing: str) -> int:
        """Behind a comma, or at the closing bracket."""
        if self.text[at:at + 1] == closing:
            return at
        if self.text[at:at + 1] != ",":
            raise NoJson(at, self.expected(at, f"`,` or `{closing}`"))
        behind = self.blanks(at + 1)
        if self.text[behind:behind + 1] == closing:
            raise NoJson(behind, f"a `,` stands before this `{closing}`")
        return behind

    def object(self, at: int, level: int) -> Tuple[Node, int]:
        node = Node("object", at)
        at = self.blanks(at + 1)
        while self.text[at:at + 1] != "}":
            if self.text[at:at + 1] != '"':
                raise NoJson(at, self.expected(at, "a key in `\"`"))
            key, at = self.string(at)
            at = self.blanks(at)
            if self.text[at:at + 1] != ":":
                raise NoJson(at, self.expected(at, "`:`"))
            member, at = self.value(self.blanks(at + 1), level + 1)
            node.members[key.text] = member
            at = self.comma(self.blanks(at), "}")
        return node, at + 1


def read(data: bytes) -> Node:
    """The value of a JSON text; NoJson where it is none."""
    try:
        text = data.decode("utf-8")
    except UnicodeDecodeError as why:
        raise NoJson(len(data[:why.start].decode("utf-8", "replace")), "this byte is no UTF-8") from None
    reader = Reader(text)
    node, at = reader.value(reader.blanks(0), 1)
    at = reader.blanks(at)
    if at < len(text):
        raise NoJson(at, "something stands behind the end of the object")
    return node


def place(data: bytes, offset: int) -> Tuple[int, int]:
    """The line and the column of a character, both from 1 on; columns count characters."""
    text = data.decode("utf-8", "replace")
    return text.count("\n", 0, offset) + 1, offset - text.rfind("\n", 0, offset)
