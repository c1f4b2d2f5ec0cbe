"""Fewer ticks for the same values: a declaration takes its first assignment, a variable that a pass has made and that is used once goes into its use, and what nobody reads goes."""
import copy
from typing import Dict, List, Optional, Sequence, Set

from ..tree.kinds import Carrier, Whole
from ..tree.making import both, cast, negated
from ..tree.nodes import Assign, Binary, Choose, Expression, Name, Node, Operation, Step
from ..tree.program import Function, Program, Variable
from ..tree.statements import Block, Declare, Empty, Evaluate, If, Local, Marked, Return, Statement
from ..tree.walking import assigned, children, counted, dressed, found, has, mapped, replaced, root, size, substituted, targets, used, walk
from .hoisting import is_pure, is_stable, loads, operates
from .simplifying import simplified
from .summing import summed

MOST = 200
MOST_SPREAD = 9


class Counts:
    """How often each variable is named and assigned in a body."""

    def __init__(self, body: Node) -> None:
        self.named: Dict[Variable, int] = {}
        self.set: Dict[Variable, int] = {}
        for it in walk(body):
            if isinstance(it, Name):
                self.named[it.variable] = self.named.get(it.variable, 0) + 1
            for variable in map(root, targets(it)):
                if variable is not None:
                    self.set[variable] = self.set.get(variable, 0) + 1
                    self.named[variable] = self.named.get(variable, 0) + isinstance(it, Operation)   # such a variable is needed


class Shortener:
    """One task's body; `made` are the variables that passes have made."""

    def __init__(self, body: Block, made: Set[Variable]) -> None:
        self.made = made
        self.count(body)

    def count(self, body: Node) -> None:
        self.counts = Counts(body)

    # a declaration with its first assignment

    def joined(self, parts: List[Statement]) -> List[Statement]:
        out = list(parts)
        at = 0
        while at < len(out):
            it = out[at]
            first = it.locals[0].first if isinstance(it, Declare) and len(it.locals) == 1 else None
            is_open = first is None or is_pure(first) and isinstance(it, Declare) and it.locals[0].variable in self.made
            if isinstance(it, Declare) and len(it.locals) == 1 and is_open and isinstance(it.locals[0].variable.kind, Whole):
                to = self.first_set(out, at, it.locals[0].variable)
                if to is not None and (it.text is None or out[to].text is None or it.locals[0].variable in self.made):
                    target = out[to]
                    assert isinstance(target, Evaluate) and isinstance(target.expression, Assign)
                    new = replaced(it, locals=(replaced(it.locals[0], first=target.expression.value),))
                    new.before, new.after = it.before + target.before, target.after or it.after
                    new.margin = target.margin or it.margin
                    out[to] = new
                    del out[at]
                    continue
            at += 1
        return out

    def first_set(self, parts: Sequence[Statement], at: int, variable: Variable) -> Optional[int]:
        """The statement that assigns a variable before anything else names it."""
        for index in range(at + 1, len(parts)):
            it = parts[index]
            if not counted(it, variable):
                if isinstance(it, Marked):
                    return None
                continue
            inner = it.expression if isinstance(it, Evaluate) else None
            is_first = isinstance(inner, Assign) and inner.sign == "=" and isinstance(inner.target, Name) and inner.target.variable is variable and not counted(inner.value, variable)
            return index if is_first else None
        return None

    # a variable that is used once

    def forwarded(self, parts: List[Statement]) -> List[Statement]:
        out = list(parts)
        at = len(out) - 2
        while at >= 0:
            it = out[at]
            variable = it.locals[0].variable if isinstance(it, Declare) and len(it.locals) == 1 else None
            first = it.locals[0].first if isinstance(it, Declare) and len(it.locals) == 1 else None
            if variable is not None and first is not None and variable in self.made and not variable.is_reference and self.counts.named.get(variable, 0) == 1 and not self.counts.set.get(variable):
                to = self.use(out, at, variable, first)
                if to is not None:
                    value = first if first.kind == variable.kind else cast(variable.kind, first)
                    new = simplified(substituted(out[to], {variable: value}))
                    assert isinstance(new, Statement)
                    out[to] = new
                    if it.before:
                        new.before = it.before + new.before
                    del out[at]
            at -= 1
        return out

    def use(self, parts: Sequence[Statement], at: int, variable: Variable, first: Expression) -> Optional[int]:
        """The statement into which a value may go: nothing between changes it, and no operation is moved over another."""
        between: List[Statement] = []
        for index in range(at + 1, len(parts)):
            it = parts[index]
            if counted(it, variable):
                return index if self.may_go(it, variable, first, between) else None
            if isinstance(it, Marked):
                return None
            between.append(it)
            if len(between) > 64:
                return None
        return None

    def may_go(self, it: Statement, variable: Variable, first: Expression, between: Sequence[Statement]) -> bool:
        if isinstance(it, Marked) or size(first) > MOST:
            return False
        if loads(first):   # a memory has no other task, so a load may go over all but a store into it
            return not used(first) & assigned(*between) and comes_first(head_of(it), variable)
        if not is_stable(first, between):
            return False
        if is_pure(first):
            if isinstance(it, (Declare, Evaluate, Return)):
                return self.before_changes(it, variable, first)
            return not used(first) & assigned(it) and (isinstance(it, If) or size(first) <= 6)
        if any(operates(each) for each in between):
            return False
        return comes_first(head_of(it), variable)

    def before_changes(self, it: Statement, variable: Variable, first: Expression) -> bool:
        """Within one statement a value is computed before anything is assigned."""
        del variable
        inner = it.expression if isinstance(it, Evaluate) else None
        if isinstance(inner, Assign) and has(inner.value, (Assign, Step)):
            return False
        return not (isinstance(inner, Operation) and any(has(each, (Assign, Step)) for each in inner.arguments)) and first is not None

    # a variable that is never assigned again

    def spread(self, parts: List[Statement]) -> List[Statement]:
        """The value of a variable in each of its uses, where it is short and takes no operation: a declaration is a tick, and what is computed within a statement is none."""
        out = list(parts)
        at = len(out) - 2
        while at >= 0:
            it = out[at]
            local = it.locals[0] if isinstance(it, Declare) and len(it.locals) == 1 else None
            if local is not None and local.first is not None and self.is_spread(local.variable, local.first) and self.lasts(local.variable, local.first, out[at + 1:]):
                value = local.first if local.first.kind == local.variable.kind else cast(local.variable.kind, local.first)
                for index in range(at + 1, len(out)):
                    if counted(out[index], local.variable):
                        new = simplified(substituted(out[index], {local.variable: value}))
                        assert isinstance(new, Statement)
                        out[index] = new
                if it.before:
                    out[at + 1] = copy.copy(out[at + 1])
                    out[at + 1].before = it.before + out[at + 1].before
                for variable in used(value):
                    self.counts.named[variable] = self.counts.named.get(variable, 0) + self.counts.named.get(local.variable, 0) - 1
                del out[at]
            at -= 1
        return out

    def is_spread(self, variable: Variable, first: Expression) -> bool:
        return variable in self.made and not variable.is_reference and isinstance(variable.kind, Whole) and not self.counts.set.get(variable) and is_pure(first) and size(first) <= (MOST_SPREAD if self.counts.named.get(variable, 0) > 1 else MOST)

    def lasts(self, variable: Variable, first: Expression, rest: Sequence[Statement]) -> bool:
        """Whether a value is the same at all uses of a variable."""
        last = max((at for at, each in enumerate(rest) if counted(each, variable)), default=-1)
        return last >= 0 and not any(isinstance(each, Marked) for each in rest) and not used(first) & assigned(*rest[:last + 1])

    # what nobody reads

    def unread(self, parts: List[Statement]) -> List[Statement]:
        out: List[Statement] = []
        for it in parts:
            if isinstance(it, Declare):
                kept = [each for each in it.locals if not self.is_unread(each.variable) or each.first is not None and not is_pure(each.first)]
                if len(kept) < len(it.locals):
                    if kept:
                        out.append(replaced(it, locals=tuple(kept)))
                    continue
            inner = it.expression if isinstance(it, Evaluate) else None
            if isinstance(inner, (Assign, Step)):
                variable = root(inner.target)
                if variable is not None and self.is_unread(variable) and is_pure(inner.target) and (isinstance(inner, Step) or is_pure(inner.value)):
                    continue
            out.append(it)
        return out

    def is_unread(self, it: Variable) -> bool:
        """A variable of a pass that is only assigned, or any that nothing names."""
        if it.role == "local" and not isinstance(it.kind, Carrier) and not self.counts.named.get(it):
            return True
        return it in self.made and it.role == "local" and not isinstance(it.kind, Carrier) and self.counts.named.get(it, 0) == self.counts.set.get(it, 0)


def head_of(it: Statement) -> Optional[Node]:
    """The part of a statement that is computed first, and once."""
    if isinstance(it, Evaluate):
        return it.expression
    if isinstance(it, Declare):
        return it.locals[0].first if len(it.locals) == 1 else None
    return it.test if isinstance(it, If) else it.value if isinstance(it, Return) else None


def comes_first(it: Optional[Node], variable: Variable) -> bool:
    """Whether a variable is named before any operation, and in each case."""
    if it is None:
        return False
    if isinstance(it, Assign):
        parts: List[Node] = [it.value] if isinstance(it.target, Name) else [it.target, it.value] if it.sign != "=" else [it.value, it.target]
        if not isinstance(it.target, Name) and operates(it.target) and counted(it.value, variable):
            return all(not operates(each) for each in children(it.target) if not isinstance(each, Name)) and comes_first(it.value, variable)
        it = parts[0] if counted(parts[0], variable) else it
        if len(parts) > 1 and not counted(parts[0], variable):
            return False
    if isinstance(it, Name):
        return it.variable is variable
    if isinstance(it, Choose):
        return comes_first(it.test, variable)
    if isinstance(it, Binary) and it.sign in ("&&", "||"):
        return comes_first(it.left, variable)
    for each in children(it):
        if counted(each, variable):
            return comes_first(each, variable)
        if operates(each):
            return False
    return False


def merged_tests(it: Statement) -> Statement:
    """`if (a) { if (b) {..} }` as one test, where a pass made the inner one."""
    if isinstance(it, If) and it.other is None and len(it.then.parts) == 1 and it.text is None:
        inner = it.then.parts[0]
        if isinstance(inner, If) and inner.other is None and inner.text is None and not operates(inner.test) and not inner.before and not it.then.end:
            return replaced(it, test=both([it.test, inner.test]), then=inner.then)
    if isinstance(it, If) and not it.then.parts and it.other is not None:
        return replaced(it, test=negated(it.test), then=it.other, other=None)
    return it


def blocks(node: Node, change: "object") -> Node:
    """A tree with the statements of each block changed, the inner blocks first."""
    made = mapped(node, lambda it: blocks(it, change))
    if isinstance(made, Block):
        parts = change(list(made.parts))  # type: ignore[operator]
        if len(parts) != len(made.parts) or any(a is not b for a, b in zip(parts, made.parts)):
            return replaced(made, parts=tuple(parts))
    return made


def tidy(parts: List[Statement]) -> List[Statement]:
    """Statements without those that do nothing, and without a block around statements that declare nothing."""
    out: List[Statement] = []
    for it in parts:
        if it.text is None:
            it = merged_tests(it)
            is_nothing = isinstance(it, Empty) or isinstance(it, Block) and not it.parts or isinstance(it, If) and not it.then.parts and it.other is None and is_pure(it.test) or \
                isinstance(it, Evaluate) and is_pure(it.expression) and not isinstance(it.expression, (Assign, Step))
            if is_nothing:
                out += [it if isinstance(it, Empty) else placed_empty(it)] if it.before else []
                continue
            if isinstance(it, Block) and not any(isinstance(each, Declare) for each in it.parts) and not it.end:
                inner = list(it.parts)
                if it.before and inner:
                    inner[0] = copy.copy(inner[0])
                    inner[0].before = it.before + inner[0].before
                out += inner
                continue
        out.append(it)
    return out


def placed_empty(it: Statement) -> Statement:
    return dressed([Empty()], it)[0]


def run(program: Program, function: Function, originals: Set[Variable]) -> None:
    body = function.body
    if body is None:
        return
    del program
    for _ in range(4):
        body = simplified(body)  # type: ignore[assignment]
        before = body
        rewritten = {each.variable for it in found(body, Declare) if it.text is None for each in it.locals}
        made = {it for it in (each.variable for each in found(body, Local)) if it not in originals or it in rewritten}
        shortener = Shortener(body, made)
        body = blocks(body, tidy)  # type: ignore[assignment]
        body = blocks(blocks(body, shortener.joined), summed)  # type: ignore[assignment]
        shortener.count(body)
        body = blocks(body, shortener.unread)  # type: ignore[assignment]
        shortener.count(body)
        body = blocks(body, shortener.forwarded)  # type: ignore[assignment]
        shortener.count(body)
        body = blocks(body, shortener.spread)  # type: ignore[assignment]
        if body is before:
            break
    function.body = body
