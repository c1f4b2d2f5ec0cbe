"""Values of constant expressions by the rules of the language, and trees without what such a value decides."""
from typing import Callable, Dict, List, Optional

from .kinds import BOOL, Whole, met, promoted
from .nodes import Binary, Cast, Choose, Expression, Name, Node, Number, Unary
from .statements import Block, Empty, For, If, Statement, While
from .walking import mapped, replaced, rewritten, walk

TWO: Dict[str, Callable[[int, int], int]] = {
    "+": lambda a, b: a + b, "-": lambda a, b: a - b, "*": lambda a, b: a * b, "&": lambda a, b: a & b, "|": lambda a, b: a | b, "^": lambda a, b: a ^ b, "<": lambda a, b: int(a < b),
    "<=": lambda a, b: int(a <= b), ">": lambda a, b: int(a > b), ">=": lambda a, b: int(a >= b), "==": lambda a, b: int(a == b), "!=": lambda a, b: int(a != b)}


def divided(sign: str, left: int, right: int) -> Optional[int]:
    """A quotient or a remainder, truncated toward 0."""
    if right == 0:
        return None
    quotient = abs(left) // abs(right) * (1 if (left < 0) == (right < 0) else -1)
    return quotient if sign == "/" else left - quotient * right


def shifted(sign: str, left: int, count: int, kind: Whole) -> int:
    if count < 0 or count >= kind.bits:
        return -1 if sign == ">>" and left < 0 else 0
    return left << count if sign == "<<" else left >> count


def constant(it: Optional[Expression]) -> Optional[int]:
    """The value of an expression of literals, constants, operators and conversions."""
    if isinstance(it, Number):
        return int(it.value) if isinstance(it.kind, Whole) else None
    if isinstance(it, Name):
        return it.variable.value if it.variable.role == "constant" and isinstance(it.kind, Whole) else None
    if isinstance(it, Cast) and isinstance(it.kind, Whole) and isinstance(it.operand.kind, Whole):
        inner = constant(it.operand)
        return None if inner is None else it.kind.wrapped(inner)
    if isinstance(it, Unary) and isinstance(it.operand.kind, Whole):
        inner = constant(it.operand)
        kind = BOOL if it.sign == "!" else promoted(it.operand.kind)
        return None if inner is None else kind.wrapped({"-": -inner, "+": inner, "~": ~inner, "!": int(not inner)}[it.sign])
    if isinstance(it, Choose) and isinstance(it.kind, Whole):
        test = constant(it.test)
        inner = None if test is None else constant(it.then if test else it.other)
        return None if inner is None else it.kind.wrapped(inner)
    return of_two(it) if isinstance(it, Binary) else None


def of_two(it: Binary) -> Optional[int]:
    left, right = constant(it.left), constant(it.right)
    if it.sign in ("&&", "||"):
        if left is not None and bool(left) == (it.sign == "||"):
            return int(bool(left))
        return None if left is None or right is None else int(bool(right))
    if left is None or right is None or not isinstance(it.left.kind, Whole) or not isinstance(it.right.kind, Whole):
        return None
    if it.sign in ("<<", ">>"):
        kind = promoted(it.left.kind)
        return kind.wrapped(shifted(it.sign, left, right, kind))
    kind = met(it.left.kind, it.right.kind)
    left, right = kind.wrapped(left), kind.wrapped(right)
    found = divided(it.sign, left, right) if it.sign in ("/", "%") else TWO[it.sign](left, right)
    return None if found is None else BOOL.wrapped(found) if it.sign in ("<", "<=", ">", ">=", "==", "!=") else kind.wrapped(found)


def folded(it: Node) -> Optional[Node]:
    """A number in the place of an operation on constants; an operand of `&&`, `||` and `?:` where the other is known."""
    if isinstance(it, (Binary, Unary, Cast, Choose)) and it.text is None:
        known = constant(it)
        if known is not None and isinstance(it.kind, Whole):
            made = Number(it.kind, known)
            made.at = it.at
            return made
        if isinstance(it, Binary) and it.sign in ("+", "-", "*"):
            return without_zero(it)
        if isinstance(it, Choose):
            test = constant(it.test)
            taken = None if test is None else it.then if test else it.other
            return taken if taken is None or taken.kind == it.kind else Cast(it.kind, taken)
        if isinstance(it, Binary) and it.sign in ("&&", "||"):
            left, right = constant(it.left), constant(it.right)
            for one, other in ((left, it.right), (right, it.left)):
                if one is not None and bool(one) == (it.sign == "&&"):
                    return other if other.kind == BOOL else Cast(BOOL, other)
    return None


def without_zero(it: Binary) -> Optional[Node]:
    """A sum with 0, or a product with 1 or 0."""
    left, right = constant(it.left), constant(it.right)
    zero, one = (0, 1) if it.sign == "*" else (None, 0)
    for known, other, is_right in ((right, it.left, True), (left, it.right, False)):
        if known is None or it.sign == "-" and not is_right:
            continue
        if known == one and other.kind == it.kind:
            return other
        if zero is not None and known == zero and all(isinstance(each, (Name, Number, Binary, Cast, Unary)) for each in walk(other)):
            return Number(it.kind, 0)
    return None


def decided(parts: List[Statement]) -> List[Statement]:
    """Statements without arms that are never taken."""
    out: List[Statement] = []
    for it in parts:
        known = constant(it.test) if isinstance(it, (If, While, For)) else None
        if isinstance(it, If) and known is not None:
            arm = it.then if known else it.other
            inner = list(arm.parts) if arm is not None else []
            out += inner
        elif isinstance(it, While) and known == 0 or isinstance(it, Empty) and not it.before:
            continue
        else:
            out.append(it)
    return out


def simplified(node: Node) -> Node:
    """A tree with constants computed and dead arms left out."""
    made = rewritten(node, folded)

    def one(it: Node) -> Node:
        new = mapped(it, one)
        if isinstance(new, Block):
            parts = decided(list(new.parts))
            if len(parts) != len(new.parts) or any(a is not b for a, b in zip(parts, new.parts)):
                return replaced(new, parts=tuple(parts))
        return new
    return one(made)
