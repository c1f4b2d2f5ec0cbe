"""From a leaf task's text to the states of its machine: blocks, branches and loops around its actions (docs/LANGUAGE.md, "Ticks")."""
from __future__ import annotations

from typing import List, Mapping, Optional, Sequence, Tuple

from ..language.kinds import BOOL, Value
from ..language.lexemes import Lexeme
from ..language.values import Node, converted, number, prefixed
from .code import Actions, Exits, State


class Code(Actions):
    """The states of a leaf task's statements."""

    def __init__(self, words: Sequence[Lexeme], position: int, constants: Mapping[str, Value]) -> None:
        super().__init__(words, position, constants)
        # of each open loop what leads behind it, and what leads to its step
        self.loops: List[Tuple[Exits, Exits]] = []

    def statement(self) -> None:
        while self.text() == "[":
            self.skip_attribute()
        if self.takes(";"):
            return
        if self.takes("{"):
            self.block()
        elif self.text() in ("if", "while", "for", "TAPA_WHILE_NOT_EOT"):
            {"if": self.branch, "while": self.while_loop, "for": self.for_loop, "TAPA_WHILE_NOT_EOT": self.transaction_loop}[self.take()]()
        elif self.text() in ("break", "continue"):
            self.jump()
        elif self.text() == "const" or self.is_kind():
            self.declaration()
            self.take(";")
        else:
            self.action()
            self.take(";")

    def skip_attribute(self) -> None:
        depth = 0
        while depth or self.text() == "[":
            depth += {"[": 1, "]": -1}.get(self.take(), 0)
            if depth == 0:
                return

    def block(self) -> None:
        """The statements of a block, behind its `{`."""
        self.scopes.append({})
        while not self.takes("}"):
            self.statement()
        self.scopes.pop()

    def inner(self) -> None:
        """A statement that is part of another: a block of its own."""
        self.scopes.append({})
        self.statement()
        self.scopes.pop()

    def jump(self) -> None:
        is_break = self.take() == "break"
        self.take(";")
        if self.loops:
            self.loops[-1][0 if is_break else 1].extend(self.pending)
        self.pending = []

    def test(self, node: Node, first: int, last: int) -> State:
        """The operations of a test, and the test, from which what follows is where it holds."""
        self.make(node)
        return self.act("test", first, last, value=converted(node, BOOL))

    def condition(self) -> Tuple[Node, int, int]:
        """An expression in parentheses, with its first and its last lexeme."""
        self.take("(")
        first = self.position
        node = self.expression()
        self.take(")")
        return node, first, self.position - 2

    def branch(self) -> None:
        test = self.test(*self.condition())
        self.inner()
        behind = self.pending
        self.pending = [(test, "otherwise")]
        if self.takes("else"):
            self.inner()
        self.pending = behind + self.pending

    def loop(self, node: Node, first: int, last: int, step: Optional[int] = None) -> None:
        """A loop behind its head; `step` is the first lexeme of a for's step."""
        head = len(self.states)
        test = self.test(node, first, last)
        self.loops.append(([], []))
        self.inner()
        breaks, continues = self.loops.pop()
        self.pending += continues
        if step is not None:
            behind, self.position = self.position, step
            self.action()
            self.position = behind
        self.bind(head)
        self.pending = [(test, "otherwise"), *breaks]

    def while_loop(self) -> None:
        self.loop(*self.condition())

    def transaction_loop(self) -> None:
        """`TAPA_WHILE_NOT_EOT(s)`, which is `while (!s.eot(nullptr))`."""
        first = self.position - 1
        self.take("(")
        stream = self.entity()
        self.take(")")
        node = Node("eot", BOOL, subject=stream.number, first=first, last=self.position - 1)
        self.loop(prefixed("!", node), first, self.position - 1)

    def for_loop(self) -> None:
        self.take("(")
        self.scopes.append({})
        if self.text() == "const" or self.is_kind():
            self.declaration()
        elif self.text() != ";":
            self.action()
        self.take(";")
        first = self.position
        node = number(1, BOOL) if self.text() == ";" else self.expression()
        last = max(first, self.position - 1)
        self.take(";")
        step = None if self.text() == ")" else self.position
        self.skip_to_closing()
        self.take(")")
        self.loop(node, first, last, step)
        self.scopes.pop()
