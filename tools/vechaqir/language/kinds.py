"""The kinds of values, and those of literals (docs/LANGUAGE.md, "Values")."""
from typing import NamedTuple, Optional, Sequence, Tuple

from . import lexemes
from .lexemes import Lexeme


class Kind(NamedTuple):
    """A kind: its bits, whether it is signed, and the word as it is written. A kind that the language has not has 0 bits."""

    bits: int
    signed: bool
    word: str


SIZED = {f"{sign}int{bits}_t": (bits, not sign) for sign in ("", "u") for bits in (8, 16, 32, 64)}
ONE = {"bool": (1, False), "size_t": (64, False), "short": (16, True), "int": (32, True), "long": (64, True), "unsigned": (32, False), **SIZED}
MANY = [words.split() for words in (
    "unsigned short int", "unsigned short", "unsigned long long int", "unsigned long long", "unsigned long int", "unsigned long", "unsigned int",
    "short int", "long long int", "long long", "long int")]
# Words with which a kind begins.
FIRST = {"std", *ONE, *(many[0] for many in MANY)}
INT = Kind(32, True, "int")
BOOL = Kind(1, False, "bool")
LEVELS = [["||"], ["&&"], ["|"], ["^"], ["&"], ["==", "!="], ["<", "<=", ">", ">="], ["<<", ">>"], ["+", "-"], ["*", "/", "%"]]


def kind_at(words: Sequence[Lexeme], at: int) -> Optional[Tuple[Kind, int]]:
    """The kind of the language that is written from a lexeme on, by its longest reading, and where it ends."""
    if not 0 <= at < len(words) or words[at].text not in FIRST:
        return None
    texts = [it.text for it in words[at:at + 4]]
    for many in MANY:
        if texts[:len(many)] == many:
            bits = 64 if "long" in many else 16 if "short" in many else 32
            return Kind(bits, many[0] != "unsigned", " ".join(many)), at + len(many)
    if texts[:2] == ["std", "::"] and len(texts) > 2 and texts[2] in SIZED:
        return Kind(*SIZED[texts[2]], "std::" + texts[2]), at + 3
    if texts and texts[0] in ONE:
        return Kind(*ONE[texts[0]], texts[0]), at + 1
    return None


def same(one: Kind, other: Kind) -> bool:
    """Whether two kinds are one, however they are written."""
    return one.bits > 0 and (one.bits, one.signed) == (other.bits, other.signed)


def converted(number: int, kind: Kind) -> int:
    """A number as a value of a kind: modulo 2 to the bits, and whether it is not 0 for a `bool`."""
    if kind.bits == 1:
        return int(number != 0)
    bits = number & (1 << kind.bits) - 1
    return bits - (1 << kind.bits) if kind.signed and bits >> kind.bits - 1 else bits


def promoted(kind: Kind) -> Kind:
    return INT if kind.bits < 32 else kind


def joined(one: Kind, other: Kind) -> Kind:
    """The kind in which two operands meet."""
    one, other = promoted(one), promoted(other)
    if one.bits != other.bits:
        return one if one.bits > other.bits else other
    return other if one.signed else one


Value = Tuple[int, Kind]


def literal(text: str) -> Optional[Value]:
    """The value of an integer literal, with the first kind that holds it; None if it is not a literal, or no kind holds it."""
    number = lexemes.value(text)
    suffix = [it for it in text.lower() if it in "ul"]
    kinds = [Kind(32, True, "int"), Kind(32, False, "unsigned"), Kind(64, True, "long"), Kind(64, False, "unsigned long")]
    may = [kind for kind in kinds if (kind.bits == 64 or "l" not in suffix) and (not kind.signed or "u" not in suffix)
           and (kind.signed or "u" in suffix or text[0] == "0" and text != "0")]
    return next(((number, kind) for kind in may if converted(number, kind) == number), None) if number is not None else None
