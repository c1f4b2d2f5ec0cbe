"""The lexemes of a TAPA source, with their places. Any bytes have lexemes: what the language does not have is kept as what it looks like, so that tools can speak of it."""
import bisect
import re
from typing import Dict, List, NamedTuple, Tuple

SIGNS = "<<= >>= :: << >> <= >= == != && || ++ -- += -= *= /= %= &= |= ^= ->".split() + list("(){}[]<>,;:?.=+-*/%&|^~!")

PIECE = re.compile(
    rb"(?P<directive>^[ \t\r]*\#(?:[ \t\r]*(?:include|pragma)(?![A-Za-z0-9_])[^\n]*|(?:\\\r?\n|[^\n])*))"
    rb"|(?P<gap>[ \t\r\n\f\v]+)|(?P<comment>//[^\n]*|/\*[\s\S]*?(?:\*/|\Z))"
    rb"|(?P<name>[A-Za-z_][A-Za-z0-9_]*)|(?P<number>[0-9][A-Za-z0-9_]*)"
    rb"|(?P<text>\"(?:[^\"\\\n]|\\.)*\"?)|(?P<character>'(?:[^'\\\n]|\\.)*'?)"
    rb"|(?P<sign>" + b"|".join(re.escape(sign.encode()) for sign in SIGNS) + rb")|(?P<other>[\s\S])", re.M)

LITERAL = re.compile(r"(?:0[xX](?P<hex>[0-9a-fA-F]+)|0[bB](?P<two>[01]+)|(?P<eight>0[0-7]*)|(?P<ten>[1-9][0-9]*))[uUlL]*")

# The words that are no names.
RESERVED = set((
    "const constexpr void tapa std if else while for TAPA_WHILE_NOT_EOT break continue nullptr true false static_cast bool int short long unsigned size_t "
    "int8_t uint8_t int16_t uint16_t int32_t uint32_t int64_t uint64_t char signed float double struct class union enum return switch case default do goto auto "
    "using typedef template static extern inline namespace new delete this sizeof").split())
OPENING = {"(": ")", "[": "]", "{": "}"}


class Place(NamedTuple):
    """A line and a column, both from 1 on; columns count bytes."""

    line: int
    column: int


class Lexeme(NamedTuple):
    """A word of a source: its kind (`name`, `number`, `text`, `character`, `sign`, `directive`, `comment` or `other`), and the offsets of its first byte and of the byte behind it."""

    kind: str
    text: str
    begin: int
    end: int


class Lines:
    """The lines of a text, by which an offset becomes a place and a place an offset."""

    def __init__(self, text: bytes) -> None:
        self.text = text
        self.starts = [0] + [found.end() for found in re.finditer(b"\n", text)]

    def place(self, offset: int) -> Place:
        line = bisect.bisect_right(self.starts, offset)
        return Place(line, offset - self.starts[line - 1] + 1)

    def offset(self, place: Place) -> int:
        """The offset of a place; one past the text is its end."""
        return len(self.text) if place.line > len(self.starts) else min(self.starts[max(place.line, 1) - 1] + place.column - 1, len(self.text))

    def line(self, number: int) -> bytes:
        """The bytes of a line without its end; a line that is not there has none."""
        if not 1 <= number <= len(self.starts):
            return b""
        end = self.starts[number] - 1 if number < len(self.starts) else len(self.text)
        return self.text[self.starts[number - 1]:end]


def every(text: bytes) -> List[Lexeme]:
    """All lexemes of a text, comments and `#` lines among them, in order."""
    found = []
    for piece in PIECE.finditer(text):
        kind = piece.lastgroup or "other"
        if kind != "gap":
            found.append(Lexeme(kind, piece[0].decode("latin-1"), piece.start(), piece.end()))
    return found


def words(lexemes: List[Lexeme]) -> List[Lexeme]:
    """The lexemes without comments and `#` lines."""
    return [it for it in lexemes if it.kind not in ("comment", "directive")]


def partners(lexemes: List[Lexeme]) -> Dict[int, int]:
    """For each bracket `(`, `[` or `{` that is closed, by its index, the index of the one that closes it."""
    open_ones: List[Tuple[str, int]] = []
    found = {}
    for at, lexeme in enumerate(lexemes):
        if lexeme.kind != "sign":
            continue
        if lexeme.text in OPENING:
            open_ones.append((OPENING[lexeme.text], at))
        elif lexeme.text in OPENING.values():
            while open_ones and open_ones[-1][0] != lexeme.text and lexeme.text == "}":
                open_ones.pop()
            if open_ones and open_ones[-1][0] == lexeme.text:
                found[open_ones.pop()[1]] = at
    return found


def decimal(digits: str) -> int:
    """The number of decimal digits; of very many a number that is beyond each kind too, since Python converts at most 4,300."""
    return int(digits) if len(digits) <= 1000 else 10 ** 1000


def value(text: str) -> "int | None":
    """The value of an integer literal, or None where a word is none."""
    found = LITERAL.fullmatch(text)
    if not found:
        return None
    if found["ten"]:
        return decimal(found["ten"])
    return int(found["hex"] or found["two"] or found["eight"], 16 if found["hex"] else 2 if found["two"] else 8)
