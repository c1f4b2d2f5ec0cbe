"""Expressions of the tree. A node is never changed: what changes a part makes a new node, so one that keeps its `text` is as it was written."""
from dataclasses import dataclass
from typing import TYPE_CHECKING, Optional, Tuple

from .kinds import Kind

if TYPE_CHECKING:
    from .program import Function, Variable


class Node:
    """`at` is the offset in the expanded text, -1 for what is made; `text` is what is written there, where it is of the language as it is."""

    at: int = -1
    text: Optional[str] = None


@dataclass(eq=False)
class Expression(Node):
    kind: Kind


@dataclass(eq=False)
class Number(Expression):
    """A constant; a float before `--fixed` has made it whole."""

    value: float


@dataclass(eq=False)
class Name(Expression):
    variable: "Variable"


@dataclass(eq=False)
class This(Expression):
    """The object of a method."""


@dataclass(eq=False)
class Text(Expression):
    value: str


@dataclass(eq=False)
class Null(Expression):
    """`nullptr`."""


@dataclass(eq=False)
class Unary(Expression):
    sign: str
    operand: Expression


@dataclass(eq=False)
class Binary(Expression):
    sign: str
    left: Expression
    right: Expression


@dataclass(eq=False)
class Assign(Expression):
    """`=` and the operators that end in it."""

    sign: str
    target: Expression
    value: Expression


@dataclass(eq=False)
class Step(Expression):
    """`++` and `--`."""

    sign: str
    is_prefix: bool
    target: Expression


@dataclass(eq=False)
class Choose(Expression):
    test: Expression
    then: Expression
    other: Expression


@dataclass(eq=False)
class Cast(Expression):
    """A conversion of a value, which is written, or which changes between numbers of different sorts."""

    operand: Expression
    is_written: bool = False


@dataclass(eq=False)
class Bits(Expression):
    """The bits of a value as another kind of the same size."""

    operand: Expression


@dataclass(eq=False)
class Index(Expression):
    base: Expression
    index: Expression


@dataclass(eq=False)
class Field(Expression):
    base: Expression
    name: str


@dataclass(eq=False)
class Call(Expression):
    """A call of a function of the source or of `tapa_library.h`; `target` is the object of a method."""

    function: "Function"
    target: Optional[Expression]
    arguments: Tuple[Expression, ...]


@dataclass(eq=False)
class Operation(Expression):
    """A call of a method of a stream, or of a channel of an `async_mmap`."""

    method: str
    stream: Expression
    arguments: Tuple[Expression, ...] = ()


@dataclass(eq=False)
class Braces(Expression):
    """A list of values for a struct or an array."""

    values: Tuple[Expression, ...]


@dataclass(eq=False)
class Comma(Expression):
    left: Expression
    right: Expression


@dataclass(eq=False)
class Lambda(Expression):
    """`copies` are captured by copy; where all others are, `references` are those that are not."""

    function: "Function"
    copies: Tuple["Variable", ...]
    references: Optional[Tuple["Variable", ...]] = None


@dataclass(eq=False)
class Bit(Expression):
    """Bits of an `ap_uint`: from `low` up to `high`, both included."""

    base: Expression
    high: Expression
    low: Expression


@dataclass(eq=False)
class Unknown(Expression):
    """What cannot be ported, with the reason and the way round."""

    why: str
    instead: str = ""
