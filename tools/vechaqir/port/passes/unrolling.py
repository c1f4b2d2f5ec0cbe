"""Loops that are written out: those with constant ends whose variable picks a stream, a memory, a cell of a struct's array or of a small array. Exact for each loop whose body does not assign its variable."""
from typing import Callable, Dict, List, NamedTuple, Optional, Sequence, Set

from ..tree.folding import constant, simplified
from ..tree.kinds import Array, Whole, is_many
from ..tree.making import block, number
from ..tree.nodes import Assign, Binary, Braces, Cast, Expression, Field, Index, Name, Node, Number, Step
from ..tree.program import Function, Program, Variable
from ..tree.statements import Block, Break, Continue, Declare, Evaluate, For, LOOPS, Local, Statement
from ..tree.walking import assigned, children, declared, found, replaced, rewritten, root, size, statements, substituted, targets, used, walk
from .jumps import Jumps

MOST = 64
MOST_CELLS, MOST_SHORT = 8, 60
MOST_NODES = 20000
TURNED = {"<": ">", "<=": ">=", ">": "<", ">=": "<=", "!=": "!=", "==": "=="}


class Trip(NamedTuple):
    """The variable of a loop and its values."""

    variable: Variable
    values: List[int]


def grown(it: Optional[Expression], variable: Variable) -> Optional[int]:
    """By how much a step changes a variable."""
    if isinstance(it, Step) and isinstance(it.target, Name) and it.target.variable is variable:
        return 1 if it.sign == "++" else -1
    if isinstance(it, Assign) and isinstance(it.target, Name) and it.target.variable is variable and it.sign in ("+=", "-="):
        by = constant(it.value)
        return None if by is None else by if it.sign == "+=" else -by
    return None


def trip(it: For, most: int = MOST) -> Optional[Trip]:
    """The values of a loop's variable, where all are constant."""
    if not isinstance(it.start, Declare) or len(it.start.locals) != 1 or not isinstance(it.test, Binary):
        return None
    local = it.start.locals[0]
    at, test, sign = constant(local.first), it.test, it.test.sign
    left, right = (test.left, test.right) if isinstance(test.left, Name) and test.left.variable is local.variable else (test.right, test.left)
    sign = sign if left is test.left else TURNED.get(sign, "")
    end, by = constant(right), grown(it.step, local.variable)
    if at is None or end is None or not by or not isinstance(left, Name) or left.variable is not local.variable or local.variable in assigned(it.body) or not isinstance(local.variable.kind, Whole):
        return None
    last = end
    tests: Dict[str, Callable[[int], bool]] = {"<": lambda x: x < last, "<=": lambda x: x <= last, ">": lambda x: x > last, ">=": lambda x: x >= last, "!=": lambda x: x != last}
    values: List[int] = []
    while sign in tests and tests[sign](at) and len(values) <= most:
        values.append(at)
        at = local.variable.kind.wrapped(at + by)
    return Trip(local.variable, values) if len(values) <= most and sign in tests else None


def following(body: Node, variable: Variable) -> Set[Variable]:
    """The variables whose values follow from one."""
    out = {variable}
    before = 0
    while len(out) != before:
        before = len(out)
        for it in walk(body):
            if isinstance(it, Local) and used(it.first) & out:
                out.add(it.variable)
            elif isinstance(it, Assign) and isinstance(it.target, Name) and used(it.value) & out:
                out.add(it.target.variable)
    return out


def picks(body: Node, variable: Variable, small: Set[Variable]) -> bool:
    """Whether a variable picks a stream, a memory, a cell of an array within a struct or of a small array."""
    chosen = [it for it in found(body, Index) if is_many(it.base.kind) or is_lane(it.base) or isinstance(it.base, Name) and it.base.variable in small]
    if not chosen:
        return False
    follows = following(body, variable)
    return any(used(it.index) & follows for it in chosen)


def is_lane(it: Expression) -> bool:
    """An array that is a field of a struct."""
    while isinstance(it, Index):
        it = it.base
    return isinstance(it, Field) and isinstance(it.kind, Array)


def small_arrays(body: Node) -> Set[Variable]:
    """Arrays of a few cells whose indices are constant once short loops are written out: each cell becomes a variable, which takes no ticks of its own."""
    short: Set[Variable] = set()
    for loop in found(body, For):
        made = trip(loop, MOST_CELLS) if size(loop.body) <= MOST_SHORT and not jumps(loop.body, Break) else None
        short |= {made.variable} if made is not None else set()
    out = {it.variable for it in found(body, Local) if isinstance(it.variable.kind, Array) and it.variable.kind.length <= MOST_CELLS and not isinstance(it.variable.kind.element, Array) and (it.first is None or isinstance(it.first, Braces))}
    whole = {id(it): it.variable for it in found(body, Name) if it.variable in out}
    for it in found(body, Index):
        if isinstance(it.base, Name) and it.base.variable in out:
            whole.pop(id(it.base), None)
            if used(it.index) - short or not all(isinstance(each, (Name, Number, Binary, Cast)) for each in walk(it.index)):
                out.discard(it.base.variable)
    return out - set(whole.values())


def is_sum(it: For) -> bool:
    """Whether a loop adds up at most eight cells: written out it becomes one statement, and takes a tick instead of three for each cell."""
    inner = it.body.parts[0] if len(it.body.parts) == 1 else None
    if not isinstance(inner, Evaluate) or not isinstance(inner.expression, Assign) or inner.expression.sign not in ("+=", "^=", "|=", "&=") or not isinstance(inner.expression.target, Name):
        return False
    return isinstance(inner.expression.value, Index) and isinstance(inner.expression.value.base, Name) and isinstance(inner.expression.value.base.kind, Array) and trip(it, MOST_CELLS) is not None


def jumps(it: Node, jump: type) -> bool:
    """Whether a body has a `break` or `continue` of its own loop."""
    return isinstance(it, jump) or any(jumps(each, jump) for each in children(it) if not isinstance(each, LOOPS))


def propagated(it: Node, is_all: bool = True) -> Node:
    """A tree in which variables of one constant value are that value."""
    changed = {root(place) for node in walk(it) for place in targets(node)}
    names = {}
    for local in found(it, Local):
        known = constant(local.first)
        variable = local.variable
        if known is not None and isinstance(variable.kind, Whole) and variable not in changed and (is_all or variable.is_const) and not variable.is_reference:
            names[variable] = number(known, variable.kind)
    if not names:
        return it

    def without(part: Statement) -> Optional[Sequence[Statement]]:
        if not isinstance(part, Declare) or not any(each.variable in names for each in part.locals):
            return None
        kept = tuple(each for each in part.locals if each.variable not in names)
        return [replaced(part, locals=kept)] if kept else []
    made: Node = substituted(statements(it, without), dict(names))
    return made


def copies(it: For, trip_: Trip) -> List[Statement]:
    """The body once for each value."""
    has_break = jumps(it.body, Break)
    parts = Jumps(Continue).parts(it.body.parts) if jumps(it.body, Continue) else list(it.body.parts)
    out: List[Statement] = []
    for turn, value in enumerate(trip_.values):
        body = block(parts, it.body)
        fresh = {each: Variable(each.name, each.kind, each.role, each.is_const, each.is_reference, each.at, origin=each.origin) for each in declared(body)} if turn or has_break else {}
        made = substituted(body, {trip_.variable: number(value, trip_.variable.kind if isinstance(trip_.variable.kind, Whole) else Whole(32, True))}, fresh)
        made = propagated(simplified(made))
        made = simplified(made)
        if turn:
            made = rewritten(made, without_comments)
        out += [made] if any(isinstance(each, Declare) for each in made.parts) else list(made.parts)
    return Jumps(Break).parts(out) if has_break else out


def without_comments(it: Node) -> Optional[Node]:
    """A copy after the first does not repeat its comments."""
    if isinstance(it, Statement) and (it.before or it.after):
        import copy
        made = copy.copy(it)
        made.before, made.after = (), ""
        return made
    return None


class Unroller:
    """The loops of one program."""

    def __init__(self, program: Program, small: Set[Variable]) -> None:
        self.program, self.small = program, small
        self.nodes = 0

    def change(self, it: Statement) -> Optional[Sequence[Statement]]:
        if not isinstance(it, For) or not isinstance(it.start, Declare) or not picks(it.body, it.start.locals[0].variable, self.small):
            return None
        found_ = trip(it)
        if found_ is None or jumps(it.body, Break) and len(found_.values) > 16 or size(it.body) * len(found_.values) > MOST_NODES:
            return None
        self.nodes += size(it.body) * len(found_.values)
        if self.nodes > 20 * MOST_NODES:
            return None
        self.program.note(it.at, "a loop whose variable picks a stream, a memory or a lane", f"its body {len(found_.values)} times")
        return copies(it, found_)


def from_outside(node: Block, change: Unroller) -> Block:
    """Loops written out, the outer ones first: their variables may pick what an inner loop does."""
    def one(it: Statement) -> Optional[Sequence[Statement]]:
        return change.change(it)
    for _ in range(8):
        made: Block = outer_first(node, one)
        if made is node:
            break
        node = made
    return node


def outer_first(node: Block, change: "object") -> Block:
    parts: List[Statement] = []
    is_same = True
    from ..tree.walking import dressed, mapped
    for it in node.parts:
        new = change(it)  # type: ignore[operator]
        if new is None:
            inner = mapped(it, lambda each: outer_first(each, change) if isinstance(each, Block) else each)
            parts.append(inner)
            is_same = is_same and inner is it
        else:
            parts += dressed(list(new), it)
            is_same = False
    return node if is_same else replaced(node, parts=tuple(parts))


def run(program: Program, function: Function) -> None:
    body = function.body
    if body is None:
        return
    made = propagated(body, False)
    assert isinstance(made, Block)
    small = small_arrays(made)
    if small or any(is_many(it.base.kind) or is_lane(it.base) for it in found(body, Index)):
        function.body = from_outside(made, Unroller(program, small))


def sums(function: Function) -> bool:
    """Loops that add up a few cells, written out, once arrays have their last form; whether there was one."""
    def change(it: Statement) -> Optional[Sequence[Statement]]:
        made = trip(it, MOST_CELLS) if isinstance(it, For) and is_sum(it) else None
        return copies(it, made) if made is not None and isinstance(it, For) else None
    before = function.body
    if before is not None:
        function.body = statements(before, change)
    return function.body is not before
