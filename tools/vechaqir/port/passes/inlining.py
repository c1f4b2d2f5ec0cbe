"""A call becomes the body of what it calls: an expression where that is one, and else statements before the one that calls. Exact for all functions that do not call themselves."""
import re
from typing import Dict, List, Optional, Sequence

from ..faults import Refused
from ..tree.kinds import VOID, Array, Carrier, Record
from ..tree.lists import zero
from ..tree.making import assign, cast, choose, declare, name, number
from ..tree.nodes import Assign, Braces, Call, Expression, Name, Node, This
from ..tree.program import Function, Program, Variable
from ..tree.statements import Block, Declare, Evaluate, If, Return, Statement
from ..tree.walking import assigned, counted, found, has, placed, replaced, size, substituted, used
from .binding import Binding, is_place
from .hoisted import Hoister
from .hoisting import indices, is_pure, with_indices
from .jumps import Jumps

MOST = 400
MOST_WHOLE = 200000


def snake(word: str) -> str:
    """`FirstZero` as `first_zero`."""
    made = re.sub(r"(?<=[a-z0-9])(?=[A-Z])", "_", word).lower()
    return made if made.isidentifier() else "value"


def as_expression(parts: Sequence[Statement], function: Function) -> Optional[Expression]:
    """A body of `return`, `if` and constants of its own as one expression; None where it does more."""
    if not parts:
        return None
    it, rest = parts[0], list(parts[1:])
    kind = function.result
    if isinstance(it, Return) and it.value is not None:
        return it.value if function.is_reference else cast(kind, it.value) if not isinstance(kind, Record) else it.value
    if isinstance(it, Block):
        return as_expression([*it.parts, *rest], function)
    if isinstance(it, If) and is_pure(it.test) and not function.is_reference:
        then = as_expression([*it.then.parts, *rest], function)
        other = as_expression([*(it.other.parts if it.other is not None else ()), *rest], function)
        if then is None or other is None or not is_pure(then) or not is_pure(other) or size(then) + size(other) > MOST:
            return None
        return choose(it.test, then, other, kind)
    if isinstance(it, Declare) and len(it.locals) == 1:
        local = it.locals[0]
        if local.first is None or local.variable.is_reference or not is_pure(local.first) or local.variable in assigned(*rest) or isinstance(local.variable.kind, (Record, Array)):
            return None
        if sum(counted(each, local.variable) for each in rest) > 1 and size(local.first) > 3 or used(local.first) & assigned(*rest):
            return None
        first = cast(local.variable.kind, local.first)
        return as_expression([substituted(each, {local.variable: first}) for each in rest], function)
    return None


class Inliner(Hoister):
    """Puts bodies in the place of calls, those of inner functions first."""

    def __init__(self, program: Program) -> None:
        super().__init__(program)
        self.ready: Dict[int, Function] = {}
        self.within: List[Function] = []
        self.total = 0

    def wanted(self, it: Node) -> bool:
        return isinstance(it, Call)

    def prepared(self, function: Function, at: int) -> Function:
        """A function whose own calls have been replaced."""
        if id(function) not in self.ready:
            if function in self.within:
                raise Refused(at, f"`{function.name}` calls itself", "a loop")
            if function.body is None:
                raise Refused(at, f"`{function.name}` has no body here", "the expression written out")
            self.within.append(function)
            try:
                function.body = self.block(function.body)
                function.filled = [(field, it) for field, it in function.filled]
            finally:
                self.within.pop()
            self.ready[id(function)] = function
        return function

    def part(self, it: Expression, before: List[Statement]) -> Optional[Expression]:
        if not isinstance(it, Call):
            return None
        return self.called(it, before, None)

    def called(self, it: Call, before: List[Statement], result: Optional[Variable]) -> Expression:
        """The value of a call, whose statements go before; into a variable where one is given and the body has several returns."""
        function = self.prepared(it.function, it.at)
        self.program.note(function.at if it.at < 0 else it.at, f"the call of `{function.word or function.name}`", "its body")
        made = self.given(it, before)
        target = made.pop(0) if it.target is not None else None
        if function.is_constructor:
            return self.constructed(it, function, made, before, result)
        assert function.body is not None
        binding = Binding(self, function, before)
        whole = as_expression(function.body.parts, function)
        binding.bind(target, made, whole)
        if whole is not None:
            value: Expression = binding.put(whole)
            return placed(value if function.is_reference or isinstance(function.result, Record) else cast(function.result, value), it)
        parts: List[Statement] = list(binding.put(function.body).parts)
        self.total += sum(size(each) for each in parts)
        if self.total > MOST_WHOLE:
            raise Refused(it.at, "the bodies of what is called are more than can be put in one another", "a task with streams")
        return self.finished(it, function, parts, before, result)

    def given(self, it: Call, before: List[Statement]) -> List[Expression]:
        """The object and the arguments of a call; of a place that goes by reference only the indices are computed before what follows."""
        by_name = [it.target is not None] * (it.target is not None) + [each.is_reference or isinstance(each.kind, (Array, Carrier)) for each in it.function.parameters]
        made: List[Expression] = []
        for each in [*([it.target] if it.target is not None else []), *it.arguments]:
            at = len(before)
            new = self.expression(each, before)
            parts = [indices(one) if is_by_name and is_place(one) else [one] for one, is_by_name in zip(made, by_name)]
            kept = iter(self.settled([one for part in parts for one in part], at, before))
            made = [with_indices(one, [next(kept) for _ in part]) if is_by_name and is_place(one) else next(kept) for one, is_by_name, part in zip(made, by_name, parts)] + [new]
        return made

    def finished(self, it: Call, function: Function, parts: List[Statement], before: List[Statement], result: Optional[Variable]) -> Expression:
        """The statements of a body go before; what is left is the value of its last `return`, or a variable."""
        if function.result == VOID:
            before += Jumps(Return).parts(parts)
            return number(0)
        returns = [each for each in found(Block(tuple(parts)), Return)]
        last = parts[-1] if parts else None
        if len(returns) == 1 and isinstance(last, Return) and last.value is not None:
            value = last.value
            own = value.variable if isinstance(value, Name) else None
            if result is not None and own is not None and own.kind == result.kind and any(isinstance(each, Declare) and any(local.variable is own for local in each.locals) for each in parts):
                before += [substituted(each, {own: name(result)}, {own: result}) for each in parts[:-1]]
                return name(result)
            before += parts[:-1]
            return placed(value if function.is_reference or isinstance(function.result, (Record, Array, Carrier)) else cast(function.result, value), it)
        if function.is_reference:
            raise Refused(it.at, f"`{function.name}` returns one of several variables", "an index, or `if` with `else`")
        variable = result if result is not None else Variable(snake(function.name), function.result)
        if result is None:
            before.append(declare(variable))
        before += Jumps(Return, lambda value: [assign(name(variable), cast(function.result, value) if not isinstance(function.result, Record) else value)] if value is not None else []).parts(parts)
        return name(variable)

    def constructed(self, it: Call, function: Function, made: List[Expression], before: List[Statement], result: Optional[Variable]) -> Expression:
        """A struct by its constructor: a list of values where its body is empty, and else a variable."""
        kind = it.kind
        assert isinstance(kind, Record) and function.body is not None
        binding = Binding(self, function, before)
        filled = dict(function.filled)
        values = Braces(kind, tuple(filled[each.name] if each.name in filled else zero(each.kind, each.first, it.at) for each in kind.members))
        is_whole = not function.body.parts and not has(values, This)
        binding.bind(None, made, values if is_whole else None)
        first = self.expression(binding.put(values), before)
        if is_whole:
            return placed(first, it)
        variable = result if result is not None else Variable(kind.name.lower(), kind)
        before.append(declare(variable, first) if result is None else assign(name(variable), first))
        binding.this = name(variable)
        before += Jumps(Return).parts(list(binding.put(function.body).parts))
        return name(variable)

    def declaration(self, it: Declare) -> List[Statement]:
        """A variable that is a call's result takes it itself."""
        out: List[Statement] = []
        for local in it.locals:
            first = local.first
            if isinstance(first, Call) and self.takes(local.variable, first):
                before: List[Statement] = []
                value = self.called(first, before, local.variable)
                if isinstance(value, Name) and value.variable is local.variable:
                    new = declare(local.variable)
                    new.at = it.at
                    is_declared = any(isinstance(each, Declare) and any(one.variable is local.variable for one in each.locals) for each in before)
                    out += before if is_declared else [new, *before]
                else:
                    out += [*before, Declare((replaced(local, first=value),))]
                continue
            out += super().declaration(Declare((local,))) if self.has(local) else [Declare((local,))]
        for each in out:
            each.at = it.at if each.at < 0 else each.at
        return out

    def takes(self, variable: Variable, call: Call) -> bool:
        """Whether a variable may be the one into which a body puts its result."""
        return not variable.is_reference and call.function.result == variable.kind and variable not in used(*call.arguments, call.target, self.prepared(call.function, call.at).body) and not call.function.is_constructor

    def evaluated(self, it: Evaluate) -> List[Statement]:
        inner = it.expression
        if isinstance(inner, Assign) and inner.sign == "=" and isinstance(inner.target, Name) and isinstance(inner.value, Call) and self.takes(inner.target.variable, inner.value):
            before: List[Statement] = []
            value = self.called(inner.value, before, inner.target.variable)
            if isinstance(value, Name) and value.variable is inner.target.variable:
                return [part for each in before for part in self.assigned_instead(each, inner.target.variable)]
            return [*before, replaced(it, expression=replaced(inner, value=value))]
        return super().evaluated(it)


    def assigned_instead(self, it: Statement, variable: Variable) -> List[Statement]:
        """A declaration of the variable itself as an assignment."""
        if not isinstance(it, Declare) or not any(local.variable is variable for local in it.locals):
            return [it]
        return [assign(name(variable), local.first) if local.variable is variable and local.first is not None else Declare((local,)) for local in it.locals if local.variable is not variable or local.first is not None]


def run(program: Program) -> None:
    """All calls within tasks."""
    inliner = Inliner(program)
    for task in program.tasks:
        if task.body is not None:
            task.body = inliner.block(task.body)
            inliner.known.clear()
