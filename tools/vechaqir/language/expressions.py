"""Expressions of a source: from lexemes to what they compute, by the names that are in scope (docs/LANGUAGE.md, "Grammar"); and what a constant expression gives."""
from __future__ import annotations

from typing import Dict, List, Mapping, NamedTuple, NoReturn, Optional, Sequence

from . import kinds
from .kinds import BOOL, LEVELS, Kind, Value, kind_at
from .lexemes import Lexeme
from .values import INDEX, Node, applied, chosen, converted, evaluator, number, prefixed


class NotUnderstood(ValueError):
    """A task's text that is none of the language; `at` is the offset of the lexeme at which it stops to be one. The words begin with the place, once the source is known."""

    def __init__(self, at: int, place: str = "", what: str = "is none of the language") -> None:
        super().__init__(f"{place}the text of a task {what}: `tapa run` says what is wrong")
        self.at = at


class Entity(NamedTuple):
    """What a name stands for: `what` is `constant`, `variable`, `array`, `memory` or `stream`; `number` counts it among its like, and is a constant's value."""

    what: str
    kind: Kind
    number: int


class Words:
    """Lexemes from a place on, with the constants of the file and the names in scope. `position` is the index of the next lexeme."""

    def __init__(self, words: Sequence[Lexeme], position: int, constants: Mapping[str, Value]) -> None:
        self.words, self.position, self.constants = words, position, constants
        self.scopes: List[Dict[str, Entity]] = []

    # ---- lexemes

    def text(self, ahead: int = 0) -> str:
        place = self.position + ahead
        return self.words[place].text if place < len(self.words) else ""

    def take(self, *texts: str) -> str:
        """The next lexeme, which is one of these, or any where none is given. Raises NotUnderstood."""
        found = self.text()
        if not found or texts and found not in texts:
            self.fail()
        self.position += 1
        return found

    def takes(self, text: str) -> bool:
        """Whether the next lexeme is this one, which is then taken."""
        is_there = self.text() == text
        self.position += is_there
        return is_there

    def fail(self) -> NoReturn:
        raise NotUnderstood(self.words[min(self.position, len(self.words) - 1)].begin)

    def skip_to_closing(self) -> None:
        """Goes on to the parenthesis that closes the one that is open here."""
        depth = 0
        while depth or self.text() != ")":
            depth += {"(": 1, ")": -1}.get(self.take(), 0)

    # ---- names and kinds

    def entity(self) -> Entity:
        """What the next lexeme, a name, stands for."""
        name = self.text()
        for scope in reversed(self.scopes):
            if name in scope:
                self.position += 1
                return scope[name]
        if name not in self.constants:
            self.fail()
        self.position += 1
        value, kind = self.constants[name]
        return Entity("constant", kind, value)

    def is_kind(self) -> bool:
        return kind_at(self.words, self.position) is not None

    def kind(self) -> Kind:
        found = kind_at(self.words, self.position)
        if found is None:
            self.fail()
        self.position = found[1]
        return found[0]

    def count(self) -> int:
        """The number of an array's cells: a literal, a name or an expression in parentheses."""
        return evaluator(self.primary())([], [])

    # ---- expressions

    def expression(self) -> Node:
        test = self.level(0)
        if not self.takes("?"):
            return test
        first = self.expression()
        self.take(":")
        return chosen(test, first, self.expression())

    def level(self, depth: int) -> Node:
        """An expression whose operators bind at least as tightly as those of this level."""
        if depth == len(LEVELS):
            return self.unary()
        left = self.level(depth + 1)
        while self.text() in LEVELS[depth]:
            left = applied(self.take(), left, self.level(depth + 1))
        return left

    def unary(self) -> Node:
        if self.text() in ("-", "+", "~", "!"):
            return prefixed(self.take(), self.unary())
        cast = kind_at(self.words, self.position + 1) if self.text() == "(" else None
        if cast and self.text(cast[1] - self.position) == ")":
            self.position = cast[1] + 1
            return converted(self.unary(), cast[0])
        return self.primary()

    def primary(self) -> Node:
        if self.text() in ("true", "false"):
            return number(int(self.take() == "true"), BOOL)
        if self.text()[:1].isdecimal():
            return self.literal()
        if self.text() == "(":
            return self.enclosed()
        if self.takes("static_cast"):
            self.take("<")
            kind = self.kind()
            self.take(">")
            return converted(self.enclosed(), kind)
        if self.is_kind():
            kind = self.kind()
            return converted(self.enclosed(), kind)
        return self.named()

    def enclosed(self) -> Node:
        self.take("(")
        node = self.expression()
        self.take(")")
        return node

    def literal(self) -> Node:
        found = kinds.literal(self.text())
        if found is None:
            self.fail()
        self.take()
        return number(*found)

    def named(self) -> Node:
        """A variable, a constant, a cell, a load, or a call of a stream's method."""
        first = self.position
        entity = self.entity()
        if entity.what == "stream":
            return self.call(entity, first)
        if entity.what in ("array", "memory"):
            index = self.index()
            if entity.what == "array":
                return Node("cell", entity.kind, (index,), entity.number)
            return Node("load", entity.kind, (index,), subject=entity.number, first=first, last=self.position - 1)
        return number(entity.number, entity.kind) if entity.what == "constant" else Node("variable", entity.kind, number=entity.number)

    def index(self) -> Node:
        self.take("[")
        node = converted(self.expression(), INDEX)
        self.take("]")
        return node

    def call(self, stream: Entity, first: int) -> Node:
        """`.read()`, `.peek(nullptr)` or `.eot(nullptr)` behind a stream's name."""
        self.take(".")
        method = self.take("read", "peek", "eot")
        self.take("(")
        self.takes("nullptr")
        self.take(")")
        return Node(method, BOOL if method == "eot" else stream.kind, subject=stream.number, first=first, last=self.position - 1)


def evaluated(words: Sequence[Lexeme], constants: Mapping[str, Value]) -> Optional[Value]:
    """What a constant expression gives, or None where it is none."""
    try:
        reader = Words(words, 0, constants)
        node = reader.expression() if words else reader.fail()
        bits = node.number if node.operator == "number" else evaluator(node)([], [])
        return (kinds.converted(bits, node.kind), node.kind) if reader.position == len(words) else None
    except (ValueError, ArithmeticError, LookupError, RecursionError):
        return None
