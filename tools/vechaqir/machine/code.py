"""The states of a leaf task's declarations and actions, in the order in which the compiler numbers them (docs/LANGUAGE.md, "Ticks").

Each state is a place at which the task makes a tick. States are made in the order of the text; what leads on to `the next state` is bound once that state is made.
"""
from __future__ import annotations

from dataclasses import dataclass, field
from typing import List, Mapping, Optional, Sequence, Tuple

from ..language.expressions import Entity, Words
from ..language.kinds import Kind, Value, promoted
from ..language.lexemes import Lexeme
from ..language.values import Node, applied, converted, number, operations

ASSIGNMENTS = ("=", "+=", "-=", "*=", "/=", "%=", "&=", "|=", "^=", "<<=", ">>=")


@dataclass(eq=False)
class State:
    """A state, with its act and its place in the text.

    `act` is `set` (of a variable or of a cell of an array), `test`, `read`, `peek`, `eot`, `open`, `write`, `close`, `load`, `store`, `clear` or `end`. `subject` counts
    the stream, memory or array of the act, from 0. `register` is the one that the act sets, if any. `next` is the number of the state that follows, of a test that of the
    one where it holds, and `otherwise` the other one. `start` and `end` are bytes of the source: what the act is written as.
    """

    act: str
    start: int
    end: int
    subject: Optional[int] = None
    register: Optional[int] = None
    value: Optional[Node] = None
    index: Optional[Node] = None
    next: int = 0
    otherwise: int = 0
    operation: Optional[Node] = field(default=None, repr=False)


@dataclass
class Named:
    """A register or an array: its name in the source, or none for the counter and for temporaries; its kind; where it is declared, as bytes; and of an array its cells."""

    name: str
    kind: Kind
    start: int
    cells: int = 1


Exits = List[Tuple[State, str]]


class Actions(Words):
    """The states of a leaf task, and the variables and arrays that it declares, in order."""

    def __init__(self, words: Sequence[Lexeme], position: int, constants: Mapping[str, Value]) -> None:
        super().__init__(words, position, constants)
        self.states: List[State] = []
        self.variables: List[Named] = []
        self.arrays: List[Named] = []
        self.pending: Exits = []

    # ---- states

    def emit(self, state: State) -> State:
        self.bind(len(self.states))
        self.states.append(state)
        self.pending = [(state, "next")]
        return state

    def bind(self, target: int) -> None:
        for state, field_name in self.pending:
            setattr(state, field_name, target)
        self.pending = []

    def act(self, act: str, first: int, last: int, **parts: object) -> State:
        """A state whose act is written from the lexeme `first` to the lexeme `last`."""
        return self.emit(State(act, self.words[first].begin, self.words[last].end, **parts))  # type: ignore[arg-type]

    def make(self, node: Node) -> None:
        """The operations of an expression, each a state that keeps its value in a register of its own."""
        for it in operations(node):
            index = it.parts[0] if it.parts else None
            state = self.act(it.operator, it.first, it.last, subject=it.subject, index=index)
            state.operation = it

    # ---- declarations

    def declare(self, name: str, entity: Entity) -> None:
        self.scopes[-1][name] = entity

    def new_variable(self, name: str, kind: Kind, at: int) -> int:
        """The number of a variable more, declared at this offset; its name is in scope once it is declared."""
        self.variables.append(Named(name, kind, at))
        return len(self.variables) - 1

    def declaration(self) -> None:
        self.takes("const")
        kind = self.kind()
        while True:
            at = self.position
            name = self.take()
            if self.takes("["):
                cells = self.count()
                self.take("]")
                self.arrays.append(Named(name, kind, self.words[at].begin, cells))
                self.declare(name, Entity("array", kind, len(self.arrays) - 1))
                self.act("clear", at, self.position - 1, subject=len(self.arrays) - 1)
            else:
                value = self.expression() if self.takes("=") else number(0, kind)
                self.make(value)
                register = self.new_variable(name, kind, self.words[at].begin)
                self.declare(name, Entity("variable", kind, register))
                self.act("set", at, self.position - 1, register=register, value=converted(value, kind))
            if not self.takes(","):
                return

    # ---- actions

    def action(self) -> None:
        if self.text() in ("++", "--"):
            self.take()
            self.step(self.position - 1)
            return
        first = self.position
        entity = self.entity()
        if entity.what == "stream":
            self.stream_action(entity, first)
            return
        self.position = first
        target, index = self.target()
        if self.text() in ("++", "--"):
            sign = self.take()
            self.assign(target, index, sign[0] + "=", number(1, promoted(target.kind)), first)
        else:
            sign = self.take(*ASSIGNMENTS)
            self.assign(target, index, sign, self.expression(), first)

    def step(self, first: int) -> None:
        """`++x` or `--x`, behind its sign."""
        sign = self.words[first].text
        target, index = self.target()
        self.assign(target, index, sign[0] + "=", number(1, promoted(target.kind)), first)

    def target(self) -> Tuple[Entity, Optional[Node]]:
        entity = self.entity()
        return entity, self.index() if entity.what in ("array", "memory") else None

    def assign(self, target: Entity, index: Optional[Node], sign: str, value: Node, first: int) -> None:
        """`target sign value`: the value's operations, then those of the index, then the act."""
        self.make(value)
        if index:
            self.make(index)
        if sign != "=":
            value = applied(sign[:-1], self.old(target, index, first), value)
        self.put(target, index, value, first)

    def old(self, target: Entity, index: Optional[Node], first: int) -> Node:
        """What a target holds before `op=`; of a memory it is loaded."""
        if target.what == "variable" or index is None:
            return Node("variable", target.kind, number=target.number)
        if target.what == "array":
            return Node("cell", target.kind, (index,), target.number)
        node = Node("load", target.kind, (index,), subject=target.number)
        state = self.act("load", first, self.position - 1, subject=target.number, index=index)
        state.operation = node
        return node

    def put(self, target: Entity, index: Optional[Node], value: Node, first: int) -> None:
        made = converted(value, target.kind)
        last = self.position - 1
        if target.what == "variable":
            self.act("set", first, last, register=target.number, value=made)
        else:
            self.act("set" if target.what == "array" else "store", first, last, subject=target.number, index=index, value=made)

    def stream_action(self, stream: Entity, first: int) -> None:
        """What a statement that begins with a stream's name does."""
        if self.takes("."):
            self.method(stream, first)
        while self.takes("<<"):
            self.write(stream, self.level(8), first)
            first = self.position
        while self.takes(">>"):
            self.read_into(stream, first)
            first = self.position

    def method(self, stream: Entity, first: int) -> None:
        name = self.take("read", "peek", "eot", "write", "open", "close")
        self.take("(")
        if name == "write":
            value = self.expression()
            self.take(")")
            self.write(stream, value, first)
            return
        self.takes("nullptr")
        self.take(")")
        self.act(name, first, self.position - 1, subject=stream.number)

    def write(self, stream: Entity, value: Node, first: int) -> None:
        last = self.position - 1
        self.make(value)
        self.act("write", first, last, subject=stream.number, value=converted(value, stream.kind))

    def read_into(self, stream: Entity, first: int) -> None:
        """`stream >> place`, behind its sign: the operations of the place's index, the read, and what is done with its value."""
        target, index = self.target()
        if index:
            self.make(index)
        node = Node("read", stream.kind, subject=stream.number)
        self.act("read", first, self.position - 1, subject=stream.number).operation = node
        self.put(target, index, node, first)
