"""Lists of values: as many as a struct or an array has fields and cells, whatever inner braces are left out."""
from typing import List

from ..faults import Refused
from .kinds import Array, First, Floating, Kind, Narrow, Record, Whole
from .nodes import Braces, Expression, Number

MOST = 65536


def zero(kind: Kind, first: First = 0, at: int = -1) -> Expression:
    """The value with which something begins that has none of its own."""
    first = kind.first if isinstance(kind, Record) and first == 0 else first
    if first is None:
        raise Refused(at, "a field that begins with no constant", "a value for it where the struct is declared")
    if isinstance(first, tuple):
        kinds = [each.kind for each in kind.members] if isinstance(kind, Record) else [getattr(kind, "element", kind)] * len(first)
        return Braces(kind, tuple(zero(inner, each, at) for inner, each in zip(kinds, first)))
    if isinstance(kind, (Whole, Floating)):
        return Number(kind, first)
    if isinstance(kind, Narrow):
        return Number(kind.whole(), first)
    return Braces(kind, ())


def spread(it: Braces) -> List[Expression]:
    """One value for each field or cell of a list."""
    given = list(it.values)
    return taken(it.kind, given, it.at)


def taken(kind: Kind, given: List[Expression], at: int) -> List[Expression]:
    """The values of the parts of a kind, taken off a list."""
    parts = [(each.kind, each.first) for each in kind.members] if isinstance(kind, Record) else [(kind.element, 0)] * kind.length if isinstance(kind, Array) else []
    if len(parts) > MOST:
        raise Refused(at, f"a list of more than {MOST} values", "a memory")
    if not parts:
        raise Refused(at, "a list of values for what is neither a struct nor an array", "one value")
    out: List[Expression] = []
    for inner, first in parts:
        if not given:
            out.append(zero(inner, first, at))
        elif isinstance(inner, (Record, Array)) and not isinstance(given[0], Braces) and given[0].kind != inner:
            out.append(Braces(inner, tuple(taken(inner, given, at))))
        else:
            it = given.pop(0)
            out.append(Braces(inner, it.values) if isinstance(it, Braces) and it.kind != inner else it)
    return out


def is_zero(it: Expression) -> bool:
    """Whether a value is that of a variable without one."""
    if isinstance(it, Number):
        return it.value == 0
    if not isinstance(it, Braces):
        return False
    if isinstance(it.kind, Record):
        return not it.kind.members or all(is_zero(each) for each in spread(it))
    return all(is_zero(each) for each in it.values) and (not isinstance(it.kind, Array) or is_zero(zero(it.kind.element)))
