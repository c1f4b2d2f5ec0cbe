"""Statements without a jump to their end: what follows an `if` that jumps goes into its `else`; out of a loop a flag and `break` lead."""
from typing import Callable, List, Optional, Sequence, Type

from ..faults import Refused
from ..tree.kinds import BOOL
from ..tree.making import assign, block, declare, name, negated, number
from ..tree.nodes import Expression, Node
from ..tree.program import Variable
from ..tree.statements import Block, Break, Continue, Do, For, ForEach, If, LOOPS, Return, Statement, While
from ..tree.walking import assigned, children, replaced, size, used
from .hoisting import is_pure

Deliver = Callable[[Optional[Expression]], List[Statement]]
SMALL = 40


def nothing(value: Optional[Expression]) -> List[Statement]:
    del value
    return []


class Jumps:
    """`jump` is `Return`, which leads out of all loops, or `Continue` or `Break`, which belong to one; `deliver` says what is done before a jump."""

    def __init__(self, jump: Type[Statement], deliver: Deliver = nothing) -> None:
        self.jump, self.deliver = jump, deliver

    def jumps(self, it: Node) -> bool:
        """Whether a statement jumps to the end of these statements."""
        if isinstance(it, self.jump):
            return True
        if self.jump is not Return and isinstance(it, LOOPS):
            return False
        return any(self.jumps(each) for each in children(it))

    def ends(self, parts: Sequence[Statement]) -> bool:
        """Whether statements jump in any case, or leave a loop."""
        if not parts:
            return False
        it = parts[-1]
        if isinstance(it, Block):
            return self.ends(it.parts)
        if isinstance(it, If):
            return it.other is not None and self.ends(it.then.parts) and self.ends(it.other.parts)
        return isinstance(it, (self.jump, Break, Continue, Return))

    def parts(self, parts: Sequence[Statement]) -> List[Statement]:
        """The statements without jumps."""
        out: List[Statement] = []
        for at, it in enumerate(parts):
            if not self.jumps(it):
                out.append(it)
                continue
            rest = list(parts[at + 1:])
            if isinstance(it, self.jump):
                return [*out, *self.delivered(it)]
            if isinstance(it, Block):
                return [*out, *self.parts([*it.parts, *rest])]
            if isinstance(it, If):
                return [*out, *self.branch(it, rest)]
            if isinstance(it, (While, For, Do, ForEach)):
                return [*out, *self.loop(it, rest)]
            raise Refused(it.at, "a jump out of a `switch` that is no `break`", "`if` with `else if`")
        return out

    def delivered(self, it: Statement) -> List[Statement]:
        return self.deliver(it.value if isinstance(it, Return) else None)

    def branch(self, it: If, rest: List[Statement]) -> List[Statement]:
        then, other = list(it.then.parts), list(it.other.parts) if it.other is not None else []
        if self.ends(then):
            first, second = self.parts(then), self.parts(other + rest)
        elif self.ends(other):
            first, second = self.parts(then + rest), self.parts(other)
        elif not rest or sum(size(each) for each in rest) <= SMALL:
            first, second = self.parts(then + rest), self.parts(other + rest)
        else:
            return self.flagged(it, rest)
        if not first:
            return [replaced(it, test=negated(it.test), then=block(second), other=None)] if second else []
        return [replaced(it, then=block(first, it.then), other=block(second, it.other) if second else None)]

    def flagged(self, it: If, rest: List[Statement]) -> List[Statement]:
        """What follows is done unless a flag says that there was a jump."""
        flag = Variable("is_done", BOOL)
        inner = Jumps(self.jump, lambda value: [*self.deliver(value), assign(name(flag), number(1, BOOL))])
        arms = [block(inner.parts(it.then.parts), it.then), block(inner.parts(it.other.parts), it.other) if it.other is not None else None]
        return [declare(flag, number(0, BOOL)), replaced(it, then=arms[0], other=arms[1]), If(negated(name(flag)), block(self.parts(rest)))]

    def loop(self, it: Statement, rest: List[Statement]) -> List[Statement]:
        """A loop out of which `return` leads."""
        body: Block = getattr(it, "body")
        is_nested = self.is_nested(body)
        if not is_nested and not any(not isinstance(each, Return) or each.value is not None for each in rest):
            return [replaced(it, body=self.broken(body, None))]
        last = rest[0] if len(rest) == 1 and isinstance(rest[0], Return) else None
        if not is_nested and isinstance(last, Return) and is_pure(last.value) and not used(last.value) & assigned(it):
            return [*self.deliver(last.value), replaced(it, body=self.broken(body, None))]
        flag = Variable("is_done", BOOL)
        behind = self.parts(rest)
        tail = [If(negated(name(flag)), block(behind))] if behind else []
        return [declare(flag, number(0, BOOL)), replaced(it, body=self.broken(body, flag)), *tail]

    def is_nested(self, body: Node, depth: int = 0) -> bool:
        """Whether a jump is within a loop of the body."""
        if isinstance(body, self.jump):
            return depth > 0
        return any(self.is_nested(each, depth + isinstance(body, LOOPS)) for each in children(body))

    def broken(self, body: Block, flag: Optional[Variable]) -> Block:
        """The body of a loop with `break` for each jump."""
        out: List[Statement] = []
        for it in body.parts:
            if isinstance(it, self.jump):
                out += [*self.delivered(it), *([assign(name(flag), number(1, BOOL))] if flag is not None else []), Break()]
                break
            if not self.jumps(it):
                out.append(it)
            elif isinstance(it, Block):
                out.append(self.broken(it, flag))
            elif isinstance(it, If):
                out.append(replaced(it, then=self.broken(it.then, flag), other=self.broken(it.other, flag) if it.other is not None else None))
            elif isinstance(it, (While, For, Do, ForEach)) and flag is not None:
                out += [replaced(it, body=self.broken(it.body, flag)), If(name(flag), Block((Break(),)))]
            else:
                raise Refused(it.at, "a jump out of a `switch` that is no `break`", "`if` with `else if`")
        return replaced(body, parts=tuple(out))
