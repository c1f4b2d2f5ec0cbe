"""Statements of which parts leave their place: each becomes those before it and what is left of it."""
from typing import Callable, Dict, List, Optional, Sequence, Tuple

from ..faults import Refused
from ..tree.kinds import BOOL
from ..tree.making import assign, block, both, declare, leave_unless, name, negated, number, terms
from ..tree.nodes import Assign, Binary, Call, Cast, Choose, Comma, Expression, Operation, Step, Unary
from ..tree.statements import Block, Declare, Do, Evaluate, For, If, Return, Statement, Switch, While
from ..tree.walking import dressed, replaced, size
from .hoisting import Parts, continues, is_pure, unfolded
from .marking import marked

SMALL = 24


class Hoister(Parts):
    """`wanted` says which nodes leave their place, and `part` what is in their place afterwards."""

    def statements(self, parts: Sequence[Statement]) -> List[Statement]:
        return [each for it in parts for each in self.statement(it)]

    def block(self, it: Block) -> Block:
        if not self.has(it):
            return it
        return replaced(it, parts=tuple(self.statements(it.parts)))

    def statement(self, it: Statement) -> List[Statement]:
        """The statements in the place of one; where a part of it cannot be ported it is marked."""
        if not self.has(it):
            return [it]
        try:
            made = self.changed(it)
        except Refused as why:
            made = [marked(self.program, it, why)]
        finally:
            self.after = None
        return dressed(made, it)

    def changed(self, it: Statement) -> List[Statement]:
        table: Dict[type, Callable[..., List[Statement]]] = {Block: lambda each: [self.block(each)], Declare: self.declaration, Evaluate: self.evaluated, If: self.if_, While: self.while_, For: self.for_,
                                                             Return: self.return_, Switch: self.switch, Do: self.do}
        reader = table.get(type(it))
        if reader is None:
            raise Refused(it.at, "something is called here that cannot leave its place", "a statement of its own before it")
        return reader(it)

    def declaration(self, it: Declare) -> List[Statement]:
        out: List[Statement] = []
        for local in it.locals:
            guarded = self.guarded(local.first)
            if guarded is not None and local.first is not None:
                out.append(declare(local.variable))
                out += self.branches(guarded, lambda value: [assign(name(local.variable), value)])
                continue
            before: List[Statement] = []
            after = self.after = []
            first = self.expression(local.first, before) if local.first is not None else None
            self.after = None
            new = Declare((replaced(local, first=first) if first is not local.first else local,))
            new.at = it.at
            out += [*before, new, *after]
        if len(out) > 1 and all(isinstance(each, Declare) for each in out) and len(out) == len(it.locals):
            return [replaced(it, locals=tuple(local for each in out if isinstance(each, Declare) for local in each.locals))]
        return out

    def guarded(self, it: Optional[Expression]) -> Optional[Choose]:
        """A conditional of which an arm cannot stay in the expression."""
        while isinstance(it, Cast) and isinstance(it.operand, Choose) and it.operand.kind == it.kind:
            it = it.operand
        if isinstance(it, Choose) and any(self.moves(each) for each in (it.then, it.other)):
            return it
        return None

    def moves(self, it: Expression) -> bool:
        """Whether an expression needs statements before it, or may not be in an arm of `?:`."""
        if not self.has(it):
            return False
        before: List[Statement] = []
        made = self.apart(it, before)
        return bool(before) or self.needs_guard(made)

    def branches(self, it: Choose, use: Callable[[Expression], List[Statement]]) -> List[Statement]:
        """`if` with what each arm is used for."""
        return self.statement(If(it.test, block(use(it.then)), block(use(it.other))))

    def evaluated(self, it: Evaluate) -> List[Statement]:
        inner = it.expression
        guarded = self.guarded(inner.value) if isinstance(inner, Assign) and inner.sign == "=" and is_pure(inner.target) else None
        if guarded is not None and isinstance(inner, Assign):
            target = inner.target
            return self.branches(guarded, lambda value: [assign(target, value)])
        if isinstance(inner, Operation) and inner.method in ("write", "<<") and len(inner.arguments) == 1 and self.guarded(inner.arguments[0]) is not None:
            kept = inner
            return self.branches(self.guarded(inner.arguments[0]) or Choose(BOOL, number(0), number(0), number(0)), lambda value: [Evaluate(replaced(kept, arguments=(value,)))])
        if isinstance(inner, Choose) and self.guarded(inner) is not None:
            return self.branches(inner, lambda value: [Evaluate(value)])
        if isinstance(inner, Binary) and inner.sign in ("&&", "||"):
            test = inner.left if inner.sign == "&&" else negated(inner.left)
            return self.statement(If(test, block([Evaluate(inner.right)])))
        before: List[Statement] = []
        after = self.after = []
        made = self.top(inner, before)
        self.after = None
        middle = [] if made is None else [replaced(it, expression=made) if made is not inner else it]
        return [*before, *middle, *after]

    def top(self, it: Expression, before: List[Statement]) -> Optional[Expression]:
        """An expression that is a statement; None where nothing of it is left."""
        if isinstance(it, Comma):
            left = self.top(it.left, before)
            if left is not None:
                before.append(Evaluate(left))
            return self.top(it.right, before)
        made = self.expression(it, before)
        is_left = isinstance(made, (Assign, Step, Operation, Call)) or not is_pure(made)
        return made if is_left else None

    def return_(self, it: Return) -> List[Statement]:
        guarded = self.guarded(it.value)
        if guarded is not None:
            return self.branches(guarded, lambda value: [Return(value)])
        before: List[Statement] = []
        value = self.expression(it.value, before) if it.value is not None else None
        return [*before, replaced(it, value=value)]

    def switch(self, it: Switch) -> List[Statement]:
        before: List[Statement] = []
        test = self.expression(it.test, before)
        groups = tuple(replaced(each, parts=tuple(self.statements(each.parts))) for each in it.groups)
        return [*before, replaced(it, test=test, groups=groups)]

    def if_(self, it: If) -> List[Statement]:
        then, other = self.block(it.then), self.block(it.other) if it.other is not None else None
        if not self.has(it.test):
            return [replaced(it, then=then, other=other)]
        trial: List[Statement] = []
        whole = self.expression(it.test, trial)
        if not trial:
            return [replaced(it, test=whole, then=then, other=other)]
        test = unfolded(it.test) if isinstance(it.test, Unary) else it.test
        tests = terms(test)
        if len(tests) > 1 and any(self.has(each) for each in tests[1:]) and (other is None or size(other) <= SMALL):
            return self.nested(tests, then, other)
        if isinstance(test, Binary) and test.sign == "||" and self.has(test.right) and size(then) <= SMALL:
            again = If(test.right, then, other)
            return self.if_(replaced(it, test=test.left, then=then, other=block([again])))
        before: List[Statement] = []
        made = self.expression(test, before)
        return [*before, replaced(it, test=made, then=then, other=other)]

    def nested(self, tests: Sequence[Expression], then: Block, other: Optional[Block]) -> List[Statement]:
        """`if (a && b)` as an `if` within another; what leaves a test is computed only where those before it hold."""
        first = [tests[0]]
        for each in tests[1:]:
            if self.has(each):
                break
            first.append(each)
        rest = tests[len(first):]
        inner = self.nested(rest, then, other) if rest else list(then.parts)
        before: List[Statement] = []
        made = self.expression(both(first), before)
        return [*before, If(made, block(inner) if rest else then, other)]

    def body_with(self, tests: Sequence[Expression], body: Block) -> Block:
        """The body of a loop that ends where a test does not hold."""
        front: List[Statement] = []
        for each in tests:
            before: List[Statement] = []
            made = self.expression(each, before)
            front += [*before, leave_unless(made)]
        return replaced(body, parts=(*front, *body.parts))

    def split(self, test: Expression) -> Tuple[Optional[Expression], List[Expression]]:
        """The test that stays in the head of a loop, and those that go into its body."""
        tests = list(terms(unfolded(test) if isinstance(test, Unary) else test))
        at = next((index for index, each in enumerate(tests) if self.has(each)), len(tests))
        before: List[Statement] = []
        if at == 0 and len(tests) > 1 and not self.needs_guard(tests[0]):
            made = self.expression(tests[0], before)
            if not before:
                return made, tests[1:]
        return (both(tests[:at]), tests[at:]) if at else (None, tests)

    def while_(self, it: While) -> List[Statement]:
        body = self.block(it.body)
        if not self.has(it.test):
            return [replaced(it, body=body)]
        before: List[Statement] = []
        whole = self.expression(it.test, before)
        if not before:
            return [replaced(it, test=whole, body=body)]
        head, rest = self.split(it.test)
        made = While(head if head is not None else number(1, BOOL), self.body_with(rest, body))
        return [made]

    def do(self, it: Do) -> List[Statement]:
        before: List[Statement] = []
        test = self.expression(it.test, before)
        body = self.block(it.body)
        if before and continues(it.body):
            raise Refused(it.at, "`continue` within a `do` whose test has an effect", "`while (true)` with `break`")
        return [replaced(it, test=test, body=replaced(body, parts=(*body.parts, *before)))]

    def for_(self, it: For) -> List[Statement]:
        front: List[Statement] = []
        start = it.start
        if start is not None and self.has(start):
            front = self.statement(start)
            start = front.pop() if front and isinstance(front[-1], (Declare, Evaluate)) else None
        body = self.block(it.body)
        step = it.step
        if self.has(step):
            if continues(it.body):
                raise Refused(it.at, "the step of a `for` that has a `continue` calls or assigns within an expression", "the step as a statement before each `continue` and at the end of the body")
            body = replaced(body, parts=(*body.parts, *self.statement(Evaluate(step)))) if step is not None else body
            step = None
        test = it.test
        if test is not None and self.has(test):
            before: List[Statement] = []
            test = self.expression(test, before)
            if before and it.test is not None:
                test, rest = self.split(it.test)
                body = self.body_with(rest, body)
        return [*front, replaced(it, start=start, test=test, step=step, body=body)]
