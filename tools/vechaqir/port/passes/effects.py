"""Assignments and `++` within expressions become statements of their own; operations on streams and memories leave the right operands of `&&` and `||` and the arms of `?:`, where the language has none."""
from typing import List, Optional, Set

from ..faults import Refused
from ..tree.kinds import BOOL, Record
from ..tree.making import assign, block, choose, declare, name, stepped
from ..tree.nodes import Assign, Binary, Choose, Comma, Expression, Index, Name, Node, Operation, Step
from ..tree.program import Function, Program
from ..tree.statements import Evaluate, For, If, Statement
from ..tree.walking import counted, replaced, statements, walk
from .hoisted import Hoister
from .hoisting import is_operation, is_pure


class Effects(Hoister):
    """The statements of one task."""

    def __init__(self, program: Program, body: Node) -> None:
        super().__init__(program)
        self.outer: Set[int] = set()
        self.guarded_operations: Set[int] = set()
        self.look(body)
        self.statement_now: Optional[Node] = None

    def look(self, body: Node) -> None:
        """Finds which expressions are statements, and which operations may not be where they are."""
        for it in walk(body):
            if isinstance(it, Evaluate):
                self.outer.add(id(it.expression))
            elif isinstance(it, For) and it.step is not None:
                self.outer.add(id(it.step))
            elif isinstance(it, Binary) and it.sign in ("&&", "||"):
                self.guarded_operations |= {id(each) for each in walk(it.right) if is_operation(each)}
            elif isinstance(it, Choose):
                self.guarded_operations |= {id(each) for arm in (it.then, it.other) for each in walk(arm) if is_operation(each)}
        self.kept_alive.append(body)

    def wanted(self, it: Node) -> bool:
        return id(it) in self.guarded_operations or isinstance(it, (Assign, Step)) and id(it) not in self.outer or isinstance(it, Comma)

    def needs_guard(self, it: Expression) -> bool:
        return any(is_operation(each) for each in walk(it))

    def statement(self, it: Statement) -> List[Statement]:
        if self.has(it) and isinstance(it, Evaluate):
            self.outer.add(id(it.expression))
        self.statement_now = it
        return super().statement(it)

    def part(self, it: Expression, before: List[Statement]) -> Optional[Expression]:
        if isinstance(it, (Assign, Step)) and isinstance(it.target, Choose):
            return self.picked(it, it.target, before)
        if isinstance(it, Assign):
            self.program.note(it.at, "an assignment within an expression", "a statement of its own")
            new = self.assigned(it, before)
            before.append(Evaluate(new))
            return new.target if is_pure(new.target) and not isinstance(new.target, Index) else self.kept(new, before)
        if isinstance(it, Step):
            self.program.note(it.at, f"`{it.sign}` within an expression", "a statement of its own")
            return self.stepped(it, before)
        return None

    def picked(self, it: "Assign | Step", target: Choose, before: List[Statement]) -> Expression:
        """An assignment to one of two places, whose value is that place."""
        if not is_pure(target.then) or not is_pure(target.other) or isinstance(it, Step) and not it.is_prefix:
            raise Refused(it.at, "an assignment to one of several variables within an expression", "`if` with `else`")
        self.program.note(it.at, "an assignment to one of several variables", "`if` with `else`")
        *value, test = self.sequence([*([it.value] if isinstance(it, Assign) else []), target.test], before)
        if isinstance(it, Assign):
            it = replaced(it, value=self.once_only(value[0], before))
        flag = self.fresh(BOOL, "is_so")
        before.append(declare(flag, test))
        before.append(If(name(flag), block([Evaluate(replaced(it, target=target.then))]), block([Evaluate(replaced(it, target=target.other))])))
        return choose(name(flag), target.then, target.other, it.kind)

    def assigned(self, it: Assign, before: List[Statement]) -> Assign:
        from .hoisting import indices, with_indices
        value, *place = self.sequence([it.value, *indices(it.target)], before)
        return replaced(it, target=with_indices(it.target, place), value=value)

    def kept(self, it: Assign, before: List[Statement]) -> Expression:
        """The value of an assignment to a cell, which is in a variable first."""
        before.pop()
        variable = self.fresh(it.target.kind)
        if it.sign == "=":
            before += [declare(variable, it.value), assign(it.target, name(variable))]
        else:
            before += [declare(variable, it.target), Evaluate(Assign(it.kind, it.sign, name(variable), it.value)), assign(it.target, name(variable))]
        return name(variable)

    def stepped(self, it: Step, before: List[Statement]) -> Expression:
        """`++x` before the statement; `x++` after it, where the statement has the name once, and else with a variable for the old value."""
        from .hoisting import indices, with_indices
        place = with_indices(it.target, self.sequence(indices(it.target), before))
        if it.is_prefix:
            before.append(stepped(place, it.sign))
            return place
        if self.after is not None and isinstance(place, Name) and self.statement_now is not None and counted(self.statement_now, place.variable) == 1 and not before:
            self.after.append(stepped(place, it.sign))
            return place
        variable = self.fresh(it.kind)
        before += [declare(variable, place), stepped(place, it.sign)]
        return name(variable)


def received(it: Statement) -> Optional[List[Statement]]:
    """`q >> s.x` as `s.x = q.read()`: what is no variable of one number may be a part of a word."""
    inner = it.expression if isinstance(it, Evaluate) else None
    if not isinstance(inner, Operation) or inner.method != ">>" or all(isinstance(each, Name) and not isinstance(each.kind, Record) for each in inner.arguments):
        return None
    return [assign(place, Operation(place.kind, "read", inner.stream)) for place in inner.arguments]


def run(program: Program, function: Function) -> None:
    if function.body is None:
        return
    function.body = body = statements(function.body, received)
    effects = Effects(program, body)
    if effects.has(body):
        function.body = effects.block(body)
