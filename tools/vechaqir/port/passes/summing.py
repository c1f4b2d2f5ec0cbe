"""A variable that is declared and changed at once, as sums over lanes are, is computed by one declaration; a loop that stores 0 in a new array goes. Exact, since nothing is between the statements, and locals begin with 0."""
from typing import List

from ..tree.folding import constant
from ..tree.kinds import Array, Whole
from ..tree.making import binary, cast
from ..tree.nodes import Assign, Index, Name
from ..tree.statements import Declare, Evaluate, For, Local, Statement
from ..tree.walking import counted, replaced, size
from .hoisting import is_pure
from .unrolling import trip

# So many parts has a sum at most, since deep expressions make a slow clock.
MOST = 48
MOST_CELLS = 4096


def joined(local: Local, inner: Assign) -> "Local | None":
    """The declaration with what is assigned after it; None where they stay."""
    variable, first = local.variable, local.first
    if first is None or variable.is_reference or not isinstance(variable.kind, Whole) or not isinstance(inner.target, Name) or inner.target.variable is not variable:
        return None
    if not is_pure(first) or not is_pure(inner.value) or not isinstance(inner.value.kind, Whole) or size(first) + size(inner.value) > MOST:
        return None
    if inner.sign == "=" and counted(inner.value, variable) == 0:
        return replaced(local, first=cast(variable.kind, inner.value))
    if inner.sign not in ("+=", "-=", "*=", "&=", "|=", "^=") or counted(inner.value, variable):
        return None
    return replaced(local, first=cast(variable.kind, binary(inner.sign[:-1], cast(variable.kind, first), inner.value)))


def summed(parts: List[Statement]) -> List[Statement]:
    """Statements with each declaration joined with the assignments right after it, of which one at least was not written so."""
    out: List[Statement] = []
    for it in without_zeros(parts):
        last = out[-1] if out else None
        if isinstance(it, Evaluate) and isinstance(it.expression, Assign) and isinstance(last, Declare) and len(last.locals) == 1 and it.text is None and not it.before and not last.after:
            made = joined(last.locals[0], it.expression)
            if made is not None:
                new = replaced(last, locals=(made,))
                new.after = it.after
                out[-1] = new
                continue
        out.append(it)
    return out


def is_cleared(parts: List[Statement], at: int) -> bool:
    """Whether a loop only stores 0 in each cell of an array that nothing has named since its declaration: locals begin with 0."""
    it = parts[at]
    made = trip(it, MOST_CELLS) if isinstance(it, For) and len(it.body.parts) == 1 else None
    inner = it.body.parts[0] if isinstance(it, For) and made is not None else None
    place = inner.expression.target if isinstance(inner, Evaluate) and isinstance(inner.expression, Assign) and inner.expression.sign == "=" and constant(inner.expression.value) == 0 else None
    if made is None or not isinstance(place, Index) or not isinstance(place.base, Name) or not isinstance(place.index, Name) or place.index.variable is not made.variable:
        return False
    array = place.base.variable
    if not isinstance(array.kind, Array) or sorted(made.values) != list(range(array.kind.length)):
        return False
    for before in reversed(parts[:at]):
        if counted(before, array) or isinstance(before, Declare) and any(each.variable is array for each in before.locals):
            return isinstance(before, Declare) and not counted(before, array) and any(each.variable is array and each.first is None for each in before.locals)
    return False


def without_zeros(parts: List[Statement]) -> List[Statement]:
    """Statements without loops that store 0 where 0 is."""
    return [it for at, it in enumerate(parts) if not is_cleared(parts, at)]
