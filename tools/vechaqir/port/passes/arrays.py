"""Arrays: one dimension with an index that is computed; a store for each value of a list; constants of the file with several values in each task that uses them."""
from typing import Dict, List, Optional, Sequence

from ..faults import Refused
from ..tree.folding import constant
from ..tree.kinds import INT, Array, Kind, Record, innermost
from ..tree.lists import is_zero, spread
from ..tree.making import assign, binary, declare, name, number
from ..tree.nodes import Binary, Braces, Expression, Index, Name, Node
from ..tree.program import Function, Program, Variable
from ..tree.statements import Block, Declare, Local, Statement
from ..tree.walking import found, from_above, placed, replaced, statements, substituted, walk
from .marking import marked, tolerant


def cells(kind: Kind) -> int:
    """The number of cells of an array in all its dimensions."""
    return kind.length * cells(kind.element) if isinstance(kind, Array) else 1


def flat(kind: Kind) -> Kind:
    return Array(innermost(kind), cells(kind)) if isinstance(kind, Array) else kind


def chain(it: Expression) -> "tuple[Expression, list[Expression]]":
    """The array at the root of indices, and these."""
    found_: List[Expression] = []
    while isinstance(it, Index) and isinstance(it.base.kind, Array):
        found_.insert(0, it.index)
        it = it.base
    return it, found_


def sum_of(left: Expression, right: Expression) -> Expression:
    """A sum without 0, and without parentheses around its right part."""
    if constant(left) == 0:
        return right
    if constant(right) == 0:
        return left
    if isinstance(right, Binary) and right.sign in ("+", "-") and right.kind == INT:
        return binary(right.sign, sum_of(left, right.left), right.right)
    made = binary("+", left, right)
    known = constant(made)
    return number(known) if known is not None else made


def is_grid(it: Expression) -> bool:
    """An array of several dimensions as a whole."""
    return isinstance(it, Name) and isinstance(it.kind, Array) and isinstance(it.kind.element, Array)


def listed(it: Expression) -> Expression:
    """An array as the list of its cells."""
    kind = it.kind
    return Braces(kind, tuple(listed(Index(kind.element, it, number(at))) for at in range(kind.length))) if isinstance(kind, Array) else it


class Arrays:
    """The arrays of one task."""

    def __init__(self, program: Program) -> None:
        self.program = program
        self.flat: Dict[Variable, Variable] = {}

    def index(self, it: Node) -> Optional[Node]:
        """`a[i][j]` as `a[i * N + j]`."""
        if isinstance(it, Braces) and any(is_grid(each) for each in it.values):
            whole: Braces = from_above(replaced(it, values=tuple(listed(each) if is_grid(each) else each for each in it.values)), self.index)
            return whole
        if not isinstance(it, Index):
            return None
        base, indices = chain(it)
        kinds: List[Array] = []
        kind = base.kind
        while isinstance(kind, Array):
            kinds.append(kind)
            kind = kind.element
        if len(kinds) < 2:
            return None
        if len(indices) != len(kinds):
            raise Refused(it.at, "a row of an array as a whole", "a loop over its cells")
        inner = [from_above(each, self.index) for each in indices]
        if not isinstance(base, Name):   # a field, whose cells a later pass places
            return self.within(it, base, inner)
        made: Expression = inner[0]
        for each, part in zip(kinds[1:], inner[1:]):
            made = sum_of(number(0) if constant(made) == 0 else binary("*", made, number(each.length)), part)
        known = constant(made)
        made = number(known) if known is not None else made
        return placed(Index(kind, name(self.flattened(base.variable)), made), it)

    def within(self, it: Index, base: Expression, inner: List[Expression]) -> Expression:
        """A cell of an array that is a field, with other indices."""
        made: Expression = from_above(base, self.index)
        kind = base.kind
        if made is base and inner == chain(it)[1]:
            return it
        for each in inner:
            kind = getattr(kind, "element")
            made = Index(kind, made, each)
        return placed(made, it)

    def flattened(self, variable: Variable) -> Variable:
        """The array of one dimension in the place of another."""
        if variable not in self.flat:
            self.flat[variable] = Variable(variable.name, flat(variable.kind), variable.role, False, False, variable.at, origin=variable.origin)
        return self.flat[variable]

    def declared(self, it: Statement) -> Optional[Sequence[Statement]]:
        """A declaration of an array, with a store for each value that is not 0."""
        if not isinstance(it, Declare) or not any(self.is_many(each) for each in it.locals):
            return None
        out: List[Statement] = []
        plain: List[Local] = []
        for local in it.locals:
            if not self.is_many(local):
                plain.append(local)
                continue
            if plain:
                out.append(replaced(it, locals=tuple(plain)))
                plain = []
            out += self.one(local)
        return [*out, *([replaced(it, locals=tuple(plain))] if plain else [])]

    def is_many(self, it: Local) -> bool:
        kind = it.variable.kind
        return isinstance(kind, Array) and (isinstance(kind.element, Array) or it.first is not None)

    def one(self, local: Local) -> List[Statement]:
        variable = local.variable
        if isinstance(variable.kind, Array) and isinstance(variable.kind.element, Array):
            self.flattened(variable)
        out: List[Statement] = [declare(variable)]
        out[0].at = local.at
        if local.first is not None:
            if not isinstance(local.first, Braces):
                raise Refused(local.at, f"the array `{variable.name}` from another one", "a loop over its cells")
            self.program.note(local.at, "a list of values", "a store for each that is not 0")
            out += self.stores(name(variable), local.first)
        return out

    def stores(self, place: Expression, values: Braces) -> List[Statement]:
        out: List[Statement] = []
        kind = place.kind
        assert isinstance(kind, Array)
        for at, it in enumerate(spread(values)):
            cell = Index(kind.element, place, number(at))
            if isinstance(it, Braces) and isinstance(it.kind, Array):
                out += self.stores(cell, it)
            elif not is_zero(it):
                out.append(assign(cell, it))
        return out

    def indexed(self, it: Statement) -> Statement:
        made: Statement = from_above(it, self.index)
        return made

    def run(self, body: Block) -> Block:
        def change(it: Statement) -> Optional[Sequence[Statement]]:
            try:
                return self.declared(it)
            except Refused as why:
                return [marked(self.program, it, why)]
        made = statements(body, change)
        made = tolerant(self.program, made, self.indexed)
        if self.flat:
            self.program.note(next(iter(self.flat)).at, "an array of several dimensions", "one dimension, and an index that is computed")
        result: Block = substituted(made, {old: name(new) for old, new in self.flat.items()}, self.flat)
        return result


def cell_of_table(it: Node) -> Optional[Node]:
    """A cell of a constant array of the file by a constant index is its value."""
    if not isinstance(it, Index):
        return None
    base, indices = chain(it)
    if not isinstance(base, Name) or base.variable.role != "table" or not isinstance(base.variable.first, Braces):
        return None
    value: Expression = base.variable.first
    for each in indices:
        at = constant(each)
        if at is None or not isinstance(value, Braces) or not isinstance(value.kind, Array) or not 0 <= at < value.kind.length:
            return None
        value = spread(value)[at]
    known = constant(value)
    return number(known, it.kind) if known is not None and not isinstance(it.kind, Record) else None  # type: ignore[arg-type]


def tables(program: Program, function: Function) -> None:
    """The constant arrays of the file that a task uses, as locals of it."""
    assert function.body is not None
    body: Block = from_above(function.body, cell_of_table)
    used: List[Variable] = []
    for it in found(body, Name):
        if it.variable.role == "table" and it.variable not in used:
            used.append(it.variable)
    if not used:
        function.body = body
        return
    fresh = {it: Variable(it.name, it.kind, "local", False, False, it.at) for it in used}
    front = [declare(fresh[it], it.first) for it in used]
    for part, variable in zip(front, used):
        part.at = part.locals[0].at = variable.at
        program.note(variable.at, f"the array `{variable.name}` of the file", "one in each task that uses it")
    function.body = replaced(body, parts=(*front, *substituted(body, {it: name(fresh[it]) for it in used}).parts))


def run(program: Program, function: Function) -> None:
    if function.body is not None and any(isinstance(it, (Index, Local, Braces)) for it in walk(function.body)):
        tables(program, function)
        assert function.body is not None
        function.body = Arrays(program).run(function.body)
