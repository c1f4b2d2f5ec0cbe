"""`do`, `switch`, several steps or starts in the head of a `for`, loops over the cells of an array, and `return` in tasks."""
from typing import List, Optional, Sequence, Tuple

from ..faults import Refused
from ..tree.kinds import BOOL, INT, Array, Record
from ..tree.making import binary, block, both, declare, leave_unless, name, number, stepped
from ..tree.nodes import Assign, Binary, Choose, Comma, Expression, Index, Number, Step
from ..tree.program import Function, Program, Variable
from ..tree.statements import Block, Break, Continue, Declare, Do, Evaluate, For, ForEach, Group, If, Return, Statement, Switch, While
from ..tree.walking import assigned, dressed, has, replaced, size, statements, substituted, used
from .hoisting import is_pure, operates
from .jumps import Jumps
from .marking import marked


def commas(it: Optional[Expression]) -> List[Expression]:
    """What commas part."""
    return [*commas(it.left), *commas(it.right)] if isinstance(it, Comma) else [] if it is None else [it]


class Control:
    """One program's statements; each answers with those in its place, or None where it stays."""

    def __init__(self, program: Program) -> None:
        self.program = program

    def change(self, it: Statement) -> Optional[Sequence[Statement]]:
        try:
            return self.changed(it)
        except Refused as why:
            return [marked(self.program, it, why)]

    def changed(self, it: Statement) -> Optional[Sequence[Statement]]:
        if isinstance(it, Do):
            self.program.note(it.at, "`do`", "`while (true)` with `break`")
            return [While(number(1, BOOL), block([*Jumps(Continue).parts(it.body.parts), leave_unless(it.test)], it.body))]
        if isinstance(it, Switch):
            self.program.note(it.at, "`switch`", "`if` with `else if`")
            return self.switch(it)
        if isinstance(it, For):
            return self.loop(it)
        if isinstance(it, ForEach):
            return self.each(it)
        if isinstance(it, Evaluate) and isinstance(it.expression, Comma):
            return [Evaluate(each) for each in commas(it.expression)]
        if isinstance(it, Evaluate) and isinstance(it.expression, (Assign, Step)) and isinstance(it.expression.target, Choose):
            return self.picked(it.expression, it.expression.target)
        return None

    def picked(self, it: "Assign | Step", target: Choose) -> Sequence[Statement]:
        """An assignment to one of two places, whose value is computed before the test."""
        front: List[Statement] = []
        if isinstance(it, Assign) and not is_pure(it.value):
            kept = Variable("value", it.value.kind)
            front, it = [declare(kept, it.value)], replaced(it, value=name(kept))
        self.program.note(it.at, "an assignment to one of several variables", "`if` with `else`")
        return [*front, If(target.test, block([Evaluate(replaced(it, target=target.then))]), block([Evaluate(replaced(it, target=target.other))]))]

    def loop(self, it: For) -> Optional[Sequence[Statement]]:
        """The first step stays in the head, or the last where they need one another; the others go to the end of the body, and all starts but the last before the loop."""
        steps = commas(it.step)
        starts = commas(it.start.expression) if isinstance(it.start, Evaluate) else []
        is_plain = not steps or isinstance(steps[0], (Step, Assign)) or not is_pure(steps[0])
        if len(steps) < 2 and len(starts) < 2 and is_plain:
            return None
        self.program.note(it.at, "several steps in the head of a `for`", "one, and the others at the end of the body")
        body = it.body
        if len(steps) > 1:
            if used(steps[0]) & assigned(*steps[1:]) or assigned(steps[0]) & used(*steps[1:]) or any(not is_pure(each) and not isinstance(each, (Step, Assign)) or operates(each) for each in steps):
                steps = [steps[-1], *steps[:-1]]
            inner = Jumps(Continue).parts(body.parts) if Jumps(Continue).jumps(body) else list(body.parts)
            body = block([*inner, *(Evaluate(each) for each in steps[1:])], body)
        start = Evaluate(starts[-1]) if starts else it.start
        return [*(Evaluate(each) for each in starts[:-1]), replaced(it, start=start, step=steps[0] if steps else None, body=body)]

    def each(self, it: ForEach) -> Sequence[Statement]:
        """A loop over an index."""
        self.program.note(it.at, "a loop over a range", "a loop over an index")
        over = it.range
        kind = over.kind
        while isinstance(kind, Record) and len(kind.members) == 1 and isinstance(kind.members[0].kind, Array):   # std::array, vec_t
            from ..tree.nodes import Field
            over = Field(kind.members[0].kind, over, kind.members[0].name)
            kind = over.kind
        if not isinstance(kind, Array) or kind.length == 0 or not is_pure(over):
            raise Refused(it.at, "a loop over what is no array of a known length", "a loop over an index")
        index = Variable("at", INT)
        cell = Index(kind.element, over, name(index))
        if it.variable.is_reference:
            parts = substituted(it.body, {it.variable: cell}).parts
        else:
            parts = (declare(it.variable, cell), *it.body.parts)
        step = stepped(name(index))
        return [For(declare(index, number(0)), binary("<", name(index), number(kind.length)), step.expression, block(parts, it.body))]

    # switch

    def switch(self, it: Switch) -> Sequence[Statement]:
        front: List[Statement] = []
        test = it.test
        if not is_pure(test) or size(test) > 8:
            kept = Variable("which", test.kind)
            front, test = [declare(kept, test)], name(kept)
        default: Optional[Block] = None
        arms: List[Tuple[Expression, Block]] = []
        for at, group in enumerate(it.groups):
            body = block(Jumps(Break).parts(self.flat(self.fallen(it.groups, at))))
            if None in group.labels:
                default = body
            else:
                arms.append((self.tested(test, group), body))
        made: Optional[Block] = default if default is not None and default.parts else None
        for condition, body in reversed(arms):
            made = Block((If(condition, body, made),))
        return [*front, *(made.parts if made is not None else ())]

    def fallen(self, groups: Sequence[Group], at: int) -> List[Statement]:
        """The statements from a case on, up to the first that ends the `switch` in any case."""
        out: List[Statement] = []
        for group in groups[at:]:
            out += group.parts
            if Jumps(Break).ends(group.parts):
                break
        return out

    def flat(self, parts: Sequence[Statement]) -> List[Statement]:
        """Statements with those of a block around a whole case."""
        return [each for it in parts for each in (it.parts if isinstance(it, Block) and not has(it, Declare) else [it])]

    def tested(self, test: Expression, group: Group) -> Expression:
        tests: List[Expression] = []
        kind = test.kind
        for label in group.labels:
            if label is None:
                continue
            low, high = (Number(kind if size(test) else kind, each) for each in label)
            tests.append(binary("==", test, number(int(low.value))) if label[0] == label[1] else both([binary(">=", test, number(int(low.value))), binary("<=", test, number(int(high.value)))]))
        made = tests[0]
        for each in tests[1:]:
            made = Binary(BOOL, "||", made, each)
        return made


def run(program: Program) -> None:
    control = Control(program)
    for function in [*program.helpers, *program.tasks]:
        if function.body is not None:
            function.body = statements(function.body, control.change)


def returns(program: Program, function: Function) -> None:
    """A task's body without `return`."""
    body = function.body
    if body is None or not has(body, Return):
        return
    try:
        first = next(it for it in walk_returns(body))
        program.note(first.at, "`return`", "`else`, or `break`")
        function.body = replaced(body, parts=tuple(Jumps(Return).parts(body.parts)))
    except Refused as why:
        function.body = replaced(body, parts=tuple(dressed([marked(program, body.parts[0], why)], body.parts[0])))


def walk_returns(body: Block) -> "list[Return]":
    from ..tree.walking import found
    return list(found(body, Return))
