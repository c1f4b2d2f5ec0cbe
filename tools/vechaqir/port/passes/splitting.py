"""Local structs that are filled field by field: a variable for each field. Exact for each struct, since fields share no bits; one that is read or copied as a whole stays whole, and becomes words."""
from typing import Dict, List, Optional, Sequence, Set

from ..faults import Refused
from ..tree.folding import constant
from ..tree.kinds import Array, Record, innermost
from ..tree.lists import is_zero, spread
from ..tree.making import assign, declare, name, number
from ..tree.nodes import Assign, Braces, Expression, Field, Index, Name, Node, Operation
from ..tree.program import Function, Program, Variable
from ..tree.statements import Block, Declare, Evaluate, Local, Statement
from ..tree.walking import from_above, has, statements, used, walk
from .layout import Layout
from .unrolling import MOST_CELLS
from .marking import marked


def record_of(it: Variable) -> Optional[Record]:
    return it.kind if isinstance(it.kind, Record) and it.kind.name not in ("ap_bit", "ap_range") else None


class Splitter:
    """The structs of one task's body."""

    def __init__(self, program: Program, body: Block) -> None:
        self.program = program
        self.whole: Set[Variable] = set()
        self.lasting: Set[Variable] = set()
        self.by_index: Set[Variable] = set()
        self.members: Dict[Variable, Dict[str, Variable]] = {}
        candidates = [it.variable for it in walk(body) if isinstance(it, Local) and record_of(it.variable) is not None]
        self.look(body)
        for it in candidates:
            if self.is_split(it):
                kind = record_of(it)
                assert kind is not None
                self.members[it] = {each.name: Variable(f"{it.name}_{each.name}", each.kind, "local", False, False, it.at, origin=(it, None, None)) for each in kind.members}
                program.note(it.at, f"the struct `{it.name}`", "a variable for each field")

    def look(self, body: Block) -> None:
        """Finds which structs get a value as a whole, and which have an array with a computed index."""
        for it in walk(body):
            if isinstance(it, Assign) and isinstance(it.target, Name) and not isinstance(it.value, Braces):
                self.whole.add(it.target.variable)
            elif isinstance(it, Local) and it.first is not None and not isinstance(it.first, Braces):
                self.whole.add(it.variable)
            elif isinstance(it, Index) and isinstance(it.base, (Field, Index)) and constant(it.index) is None:
                base: Expression = it.base
                while isinstance(base, (Field, Index)):
                    base = base.base
                if isinstance(base, Name):
                    self.by_index.add(base.variable)

    def is_split(self, it: Variable) -> bool:
        kind = record_of(it)
        assert kind is not None
        if kind.why:
            return False
        if it not in self.whole:
            return True
        layout = Layout(kind)
        return it in self.by_index and layout.count > 4

    # what becomes of uses

    def field(self, it: Node) -> Optional[Node]:
        """A field is its variable; the whole is the list of its fields."""
        if isinstance(it, Field) and isinstance(it.base, Name) and it.base.variable in self.members:
            return name(self.members[it.base.variable][it.name])
        if isinstance(it, Name) and it.variable in self.members:
            return Braces(it.kind, tuple(name(each) for each in self.members[it.variable].values()))
        return None

    def change(self, it: Statement) -> Optional[Sequence[Statement]]:
        try:
            if isinstance(it, Declare) and any(each.variable in self.members for each in it.locals):
                return [part for each in it.locals for part in (self.declared(each) if each.variable in self.members else [Declare((from_above(each, self.field),))])]
            if isinstance(it, Evaluate) and isinstance(it.expression, Assign) and isinstance(it.expression.target, Name) and it.expression.target.variable in self.members:
                return self.assigned(it.expression.target.variable, it.expression.value)
        except Refused as why:
            return [marked(self.program, it, why)]
        return None

    def declared(self, it: Local) -> List[Statement]:
        members = self.members[it.variable]
        kind = record_of(it.variable)
        assert kind is not None
        if it.first is None:
            return [declare(each) for each in members.values()]
        if not isinstance(it.first, Braces):
            return [*(declare(each) for each in members.values()), *self.assigned(it.variable, it.first)]
        values = spread(it.first)
        has_values = bool(it.first.values) or not is_zero(it.first)
        out: List[Statement] = []
        for variable, value in zip(members.values(), values):
            value = from_above(value, self.field)
            is_array = named_array(value) is not None
            out.append(declare(variable, value if has_values and not is_array and not (isinstance(value, Braces) and not value.values and is_zero(value)) else None))
            out += copied(name(variable), value) if is_array else []
        return out

    def assigned(self, variable: Variable, value: Expression) -> List[Statement]:
        """A struct that gets a value as a whole: field by field, by variables where one field's value needs another's."""
        members = list(self.members[variable].values())
        if not isinstance(value, Braces):
            kept = Variable(variable.name, variable.kind)
            made: List[Statement] = [declare(kept, from_above(value, self.field))]
            return [*made, *(assign(name(each), Field(each.kind, name(kept), word)) for word, each in self.members[variable].items() if not isinstance(each.kind, Array)),
                    *(part for word, each in self.members[variable].items() if isinstance(each.kind, Array) for part in copied(name(each), Field(each.kind, name(kept), word)))]
        values = [from_above(each, self.field) for each in spread(value)]
        out: List[Statement] = []
        front: List[Statement] = []
        late = [bool(used(one).intersection(members[:at])) or members[at] in used(one) and isinstance(one, Braces) for at, one in enumerate(values)]
        for each, one, is_late in zip(members, values, late):
            if is_late or any(late) and has(one, Operation):
                kept = Variable(each.name, each.kind)
                front += [declare(kept), *copied(name(kept), one)] if named_array(one) is not None else [declare(kept, one)]
                one = name(kept)
            if isinstance(each.kind, Array):
                out += listed(name(each), one)
            elif not (isinstance(one, Name) and one.variable is each):
                out.append(assign(name(each), one))
        return [*front, *out]

    def run(self, body: Block) -> Block:
        if not self.members:
            return body
        made = statements(body, self.change)
        result: Block = from_above(made, self.field)
        return result


def copied(target: Expression, value: Expression) -> List[Statement]:
    """An array cell by cell."""
    kind = target.kind
    assert isinstance(kind, Array)
    out: List[Statement] = []
    for at in range(kind.length):
        left, right = Index(kind.element, target, number(at)), Index(kind.element, value, number(at))
        out += copied(left, right) if isinstance(kind.element, Array) else [assign(left, right)]
    return out


def listed(target: Expression, value: Expression) -> List[Statement]:
    """An array from a list of values, or from another one."""
    if not isinstance(value, Braces):
        return copied(target, value)
    kind = target.kind
    assert isinstance(kind, Array)
    out: List[Statement] = []
    for at, each in enumerate(spread(value)):
        cell = Index(kind.element, target, number(at))
        out += listed(cell, each) if isinstance(kind.element, Array) else [assign(cell, each)]
    return out


def named_array(it: Optional[Node]) -> Optional[Name]:
    """An expression that is the name of an array."""
    return it if isinstance(it, Name) and isinstance(it.kind, Array) else None


def small_arrays(body: Block, is_late: bool) -> Dict[Variable, List[Variable]]:
    """The arrays made of fields, and at last all with a few cells, whose indices are all constant: a variable for each cell."""
    made = {it.variable for it in walk(body) if isinstance(it, Local) and isinstance(it.variable.kind, Array) and it.variable.kind.length <= (64 if it.variable.origin is not None else MOST_CELLS if is_late else 0)}
    uses: Dict[Variable, bool] = {it: True for it in made if not isinstance(innermost(it.kind), Record) and not isinstance(getattr(it.kind, "element", None), Array)}
    inside: Set[int] = set()
    for it in walk(body):
        if isinstance(it, Index) and isinstance(it.base, Name) and it.base.variable in uses:
            inside.add(id(it.base))
            at = constant(it.index)
            if at is None or not 0 <= at < getattr(it.base.kind, "length", 0):
                uses[it.base.variable] = False
    for it in walk(body):
        if isinstance(it, Local) and it.variable in uses and it.first is not None and not isinstance(it.first, Braces) and named_array(it.first) is None:
            uses[it.variable] = False
        if is_late and isinstance(it, Name) and it.variable in uses and id(it) not in inside:   # as a whole
            uses[it.variable] = False
    return {it: [Variable(f"{it.name}_{at}", getattr(it.kind, "element"), "local", at=it.at, origin=it.origin) for at in range(getattr(it.kind, "length"))] for it, is_small in uses.items() if is_small}


def cells(body: Block, is_late: bool = False) -> Block:
    """A body with a variable for each cell of the small arrays."""
    small = small_arrays(body, is_late)
    if not small:
        return body

    def change(it: Statement) -> Optional[Sequence[Statement]]:
        if not isinstance(it, Declare) or not any(each.variable in small for each in it.locals):
            return None
        out: List[Statement] = []
        for local in it.locals:
            if local.variable in small:
                values: Sequence[Optional[Expression]] = [None] * len(small[local.variable])
                if isinstance(local.first, Braces) and local.first.values:
                    values = spread(local.first)
                other = named_array(local.first)
                if other is not None:
                    values = [Index(each.kind, other, number(at)) for at, each in enumerate(small[local.variable])]
                out += [declare(each, value) for each, value in zip(small[local.variable], values)]
            else:
                out.append(Declare((local,)))
        return out

    def cell(it: Node) -> Optional[Node]:
        if isinstance(it, Index) and isinstance(it.base, Name) and it.base.variable in small:
            return name(small[it.base.variable][constant(it.index) or 0])
        if isinstance(it, Name) and it.variable in small:
            return Braces(it.kind, tuple(name(each) for each in small[it.variable]))
        return None
    made: Block = from_above(statements(body, change), cell)
    return made


def run(program: Program, function: Function) -> None:
    """Structs within structs too, until none is left to split."""
    for _ in range(16):
        if function.body is None:
            return
        splitter = Splitter(program, function.body)
        if not splitter.members:
            break
        function.body = splitter.run(function.body)
    assert function.body is not None
    function.body = cells(function.body)
