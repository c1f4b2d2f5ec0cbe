"""Plainer text for the same value: conversions that change nothing, tests of tests, double negations. Only what a pass has made is looked at."""
from typing import Optional

from ..tree.folding import folded
from ..tree.kinds import BOOL, Whole
from ..tree.making import cast, negated
from ..tree.nodes import Binary, Cast, Choose, Expression, Index, Node, Unary
from ..tree.statements import For, If, While
from ..tree.walking import placed, replaced, rewritten


def tested(it: Expression) -> Expression:
    """A test without a conversion to `bool`, which a test makes itself."""
    if isinstance(it, Cast) and it.kind == BOOL and isinstance(it.operand.kind, Whole) and it.text is None:
        return it.operand
    return it


def converted(it: Cast) -> Optional[Node]:
    """A conversion of a conversion, or of what has the kind already."""
    inner, kind = it.operand, it.kind
    if not isinstance(kind, Whole) or not isinstance(inner.kind, Whole):
        return None
    if inner.kind == kind:
        return inner
    if isinstance(inner, Cast) and isinstance(inner.operand.kind, Whole) and inner.kind != BOOL and kind != BOOL:
        if kind.bits <= inner.kind.bits or widens(inner.operand.kind, inner.kind):
            return placed(cast(kind, inner.operand), it)
    return None


def widens(own: Whole, kind: Whole) -> bool:
    """Whether a kind has all values of another."""
    return own == BOOL or kind.bits > own.bits and (kind.is_signed or not own.is_signed) or kind == own


def negation(it: Unary) -> Optional[Node]:
    inner = tested(it.operand)
    if isinstance(inner, Unary) and inner.sign == "!" and inner.operand.kind == BOOL:
        return inner.operand
    if isinstance(inner, Binary) and inner.sign in ("==", "!=", "<", "<=", ">", ">=") and isinstance(inner.left.kind, Whole):
        return negated(inner)
    return replaced(it, operand=inner) if inner is not it.operand else None


def simpler(it: Node) -> Optional[Node]:
    if it.text is not None:
        return None
    if isinstance(it, Cast):
        found = converted(it)
        if found is not None:
            return found
    if isinstance(it, Unary) and it.sign == "!":
        found = negation(it)
        if found is not None:
            return found
    if isinstance(it, Index) and isinstance(it.index, Cast) and isinstance(it.index.kind, Whole) and isinstance(it.index.operand.kind, Whole) and widens(it.index.operand.kind, it.index.kind):
        return replaced(it, index=it.index.operand)
    if isinstance(it, Binary) and it.sign in ("&&", "||"):
        left, right = tested(it.left), tested(it.right)
        if left is not it.left or right is not it.right:
            return replaced(it, left=left, right=right)
    if isinstance(it, (If, Choose)) and tested(it.test) is not it.test:
        return replaced(it, test=tested(it.test))
    if isinstance(it, (While, For)) and it.test is not None and tested(it.test) is not it.test:
        return replaced(it, test=tested(it.test))
    return folded(it)


def simplified(it: Node) -> Node:
    """A tree with simpler expressions."""
    made: Node = rewritten(it, simpler)
    return made
