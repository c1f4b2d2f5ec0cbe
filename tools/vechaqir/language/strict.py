"""The lexemes of a source as the language has them, or that it has none there (docs/LANGUAGE.md, "Lexemes")."""
import re
from typing import List

from .lexemes import Lexeme, value as value_of

SIGNS = "<<= >>= :: << >> <= >= == != && || ++ -- += -= *= /= %= &= |= ^=".split() + list("(){}[]<>,;:?.=+-*/%&|^~!")
PIECE = re.compile(
    rb"(?P<gap>(?:(?<=\n)|(?<![\s\S]))[ \t\r]*\#[ \t\r]*(?:include|pragma)(?![A-Za-z0-9_])[^\n]*|[ \t\r\n]|//[^\n]*|/\*.*?\*/)"
    rb"|(?P<word>[A-Za-z_][A-Za-z0-9_]*)|(?P<number>[0-9][A-Za-z0-9_]*)|(?P<text>\"[ !#-\[\]-~]*\")"
    rb"|(?P<sign>" + b"|".join(re.escape(sign.encode()) for sign in SIGNS) + rb")", re.S)
LITERAL = re.compile(r"(?:0[xX](?P<hex>[0-9a-fA-F]+)|0[bB](?P<two>[01]+)|(?P<eight>0[0-7]*)|(?P<ten>[1-9][0-9]*))(?P<end>[uU]?(?:l|L|ll|LL)?|(?:l|L|ll|LL)[uU])")


class NoLexemes(Exception):
    """The lexer refuses the source."""


def is_literal(word: str) -> bool:
    """An integer literal whose value a kind holds."""
    found = LITERAL.fullmatch(word)
    if not found:
        return False
    value = value_of(word) or 0
    return value < 2**63 if found["ten"] and "u" not in found["end"].lower() else value < 2**64


def lexemes(source: bytes) -> List[Lexeme]:
    """Kind, text, from, to of each lexeme."""
    found: List[Lexeme] = []
    at = 0
    while at < len(source):
        piece = PIECE.match(source, at)
        if not piece or piece["number"] and not is_literal(piece["number"].decode()):
            raise NoLexemes()
        if piece.lastgroup != "gap":
            found.append(Lexeme(piece.lastgroup or "", piece[0].decode(), at, piece.end()))
        at = piece.end()
    return found
