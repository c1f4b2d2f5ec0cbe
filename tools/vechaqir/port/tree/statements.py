"""Statements of the tree, with the comments before them and on their lines."""
from dataclasses import dataclass
from typing import TYPE_CHECKING, Optional, Tuple

from .nodes import Expression, Node

if TYPE_CHECKING:
    from .program import Function, Variable


class Statement(Node):
    """`before` are the lines of comments, pragmas and blank lines before it, `attribute` what is in `[[ ]]`, `after` the comment on its line, `margin` the blanks of the line where it begins."""

    before: Tuple[str, ...] = ()
    after: str = ""
    attribute: str = ""
    margin: str = ""


@dataclass(eq=False)
class Block(Statement):
    """`end` are the comment lines before the closing brace; `is_braced` is false for a single statement without braces."""

    parts: Tuple[Statement, ...]
    end: Tuple[str, ...] = ()
    is_braced: bool = True


@dataclass(eq=False)
class Local(Node):
    """One variable of a declaration, with its initial value."""

    variable: "Variable"
    first: Optional[Expression] = None


@dataclass(eq=False)
class Declare(Statement):
    locals: Tuple[Local, ...]


@dataclass(eq=False)
class Evaluate(Statement):
    expression: Expression


@dataclass(eq=False)
class If(Statement):
    test: Expression
    then: Block
    other: Optional[Block] = None


@dataclass(eq=False)
class While(Statement):
    """`macro` is the word of `tapa.h` by which it is written, or empty."""

    test: Expression
    body: Block
    macro: str = ""


@dataclass(eq=False)
class Do(Statement):
    body: Block
    test: Expression


@dataclass(eq=False)
class For(Statement):
    start: Optional[Statement]
    test: Optional[Expression]
    step: Optional[Expression]
    body: Block


@dataclass(eq=False)
class ForEach(Statement):
    """A loop over the cells of an array; a reference is the cell itself."""

    variable: "Variable"
    range: Expression
    body: Block


@dataclass(eq=False)
class Group(Node):
    """The statements from one or several cases on; a label is the least and the largest value, None is `default`."""

    labels: Tuple[Optional[Tuple[int, int]], ...]
    parts: Tuple[Statement, ...]


@dataclass(eq=False)
class Switch(Statement):
    test: Expression
    groups: Tuple[Group, ...]


@dataclass(eq=False)
class Break(Statement):
    pass


@dataclass(eq=False)
class Continue(Statement):
    pass


@dataclass(eq=False)
class Return(Statement):
    value: Optional[Expression] = None


@dataclass(eq=False)
class Empty(Statement):
    pass


@dataclass(eq=False)
class Invoke(Node):
    function: "Function"
    is_detached: bool
    count: int
    arguments: Tuple[Expression, ...]


@dataclass(eq=False)
class Chain(Statement):
    """The invokes of an upper-level task."""

    invokes: Tuple[Invoke, ...]


@dataclass(eq=False)
class Marked(Statement):
    """A statement that is left to change by hand, as it is written."""

    lines: Tuple[str, ...]
    line: int
    why: str


LOOPS = (While, Do, For, ForEach)
