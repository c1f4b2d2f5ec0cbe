"""Makes expressions and statements with the kinds that C++ gives them."""
from typing import Optional, Sequence, Tuple

from .kinds import BOOL, INT, Array, Kind, Narrow, Whole, met, promoted
from .nodes import Assign, Binary, Cast, Choose, Expression, Index, Name, Number, Step, Unary
from .program import Variable
from .statements import Block, Break, Declare, Evaluate, If, Local, Statement

TESTS = ("<", "<=", ">", ">=", "==", "!=", "&&", "||")
OPPOSITE = {"<": ">=", ">=": "<", ">": "<=", "<=": ">", "==": "!=", "!=": "=="}


def number(value: int, kind: Whole = INT) -> Number:
    return Number(kind, kind.wrapped(value))


def name(variable: Variable) -> Name:
    return Name(variable.kind, variable)


def binary(sign: str, left: Expression, right: Expression) -> Expression:
    """An operation with the kind of its result."""
    if sign in TESTS:
        return Binary(BOOL, sign, left, right)
    kinds = [it.kind if isinstance(it.kind, Whole) else INT for it in (left, right)]
    return Binary(promoted(kinds[0]) if sign in ("<<", ">>") else met(*kinds), sign, left, right)


def cast(kind: Kind, it: Expression) -> Expression:
    """A value as another kind; a value of that kind as it is."""
    if it.kind == kind:
        return it
    if isinstance(it, Number) and isinstance(kind, Whole) and isinstance(it.kind, Whole):
        return Number(kind, kind.wrapped(int(it.value)))
    made = Cast(kind, it)
    made.at = it.at
    return made


def assign(target: Expression, value: Expression, sign: str = "=") -> Evaluate:
    made = Evaluate(Assign(target.kind, sign, target, value))
    made.at = value.at
    return made


def declare(variable: Variable, first: Optional[Expression] = None) -> Declare:
    made = Declare((Local(variable, first),))
    made.at = first.at if first is not None else -1
    return made


def stepped(target: Expression, sign: str = "++") -> Evaluate:
    return Evaluate(Step(target.kind, sign, True, target))


def negated(it: Expression) -> Expression:
    """The opposite of a test."""
    if isinstance(it, Unary) and it.sign == "!":
        return it.operand
    if isinstance(it, Binary) and it.sign in OPPOSITE and isinstance(it.left.kind, (Whole, Narrow)):
        made: Expression = Binary(BOOL, OPPOSITE[it.sign], it.left, it.right)
    elif isinstance(it, Number):
        made = number(0 if it.value else 1, BOOL)
    else:
        made = Unary(BOOL, "!", it)
    made.at = it.at
    return made


def block(parts: Sequence[Statement], like: Optional[Block] = None) -> Block:
    made = Block(tuple(parts), like.end if like is not None else ())
    if like is not None:
        made.at, made.margin = like.at, like.margin
    return made


def leave_unless(test: Expression) -> If:
    """`if (!test) { break; }`."""
    return If(negated(test), Block((Break(),)))


def choose(test: Expression, then: Expression, other: Expression, kind: Kind) -> Expression:
    made = Choose(kind, test, then, other)
    made.at = test.at
    return made


def cell(array: Variable, index: Expression) -> Index:
    kind = array.kind
    return Index(kind.element if isinstance(kind, Array) else getattr(kind, "element", INT), name(array), index)


def terms(it: Expression) -> Tuple[Expression, ...]:
    """What `&&` parts."""
    return (*terms(it.left), *terms(it.right)) if isinstance(it, Binary) and it.sign == "&&" else (it,)


def both(tests: Sequence[Expression]) -> Expression:
    """Tests joined by `&&`."""
    made = tests[0]
    for it in tests[1:]:
        made = Binary(BOOL, "&&", made, it)
        made.at = tests[0].at
    return made
