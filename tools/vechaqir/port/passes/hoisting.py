"""Expressions of which parts leave their place and become statements before it, in C++'s order: what a part needs first is kept in a variable where it could change meanwhile."""
from typing import Dict, List, Optional, Sequence

from ..tree.kinds import BOOL, Kind, is_memory
from ..tree.making import assign, block, declare, name, negated
from ..tree.nodes import Assign, Binary, Call, Choose, Comma, Expression, Field, Index, Name, Node, Operation, Step, Unary
from ..tree.program import Program, Variable
from ..tree.statements import Continue, Evaluate, If, LOOPS, Statement
from ..tree.walking import assigned, children, has, mapped, replaced, used, walk


def is_operation(it: Node) -> bool:
    """An operation on a stream, or an access of a memory."""
    return isinstance(it, Operation) or isinstance(it, Index) and is_memory(it.base.kind)


def operates(*nodes: Optional[Node]) -> bool:
    return any(is_operation(it) or isinstance(it, Call) for node in nodes for it in walk(node))


def loads(it: Expression) -> bool:
    """Whether what an expression does is only to load from memories."""
    return not has(it, (Assign, Step, Operation, Call)) and operates(it)


def is_pure(it: Optional[Node]) -> bool:
    """Whether computing an expression once more, or not at all, makes no difference."""
    return not any(is_operation(each) or isinstance(each, (Call, Assign, Step)) for each in walk(it))


def is_stable(it: Expression, statements: Sequence[Statement]) -> bool:
    """Whether an expression gives the same after some statements as before them."""
    if used(it) & assigned(*statements):
        return False
    return not (operates(it) and operates(*statements)) and not has(it, (Assign, Step, Call))


def continues(it: Node) -> bool:
    """Whether a body goes on to the next iteration of the loop around it."""
    return isinstance(it, Continue) or any(continues(each) for each in children(it) if not isinstance(each, LOOPS))


class Parts:
    """`wanted` says which nodes leave their place, and `part` what is in their place afterwards."""

    def __init__(self, program: Program) -> None:
        self.program = program
        self.known: Dict[int, bool] = {}
        self.kept_alive: List[Node] = []
        self.after: Optional[List[Statement]] = None

    def wanted(self, it: Node) -> bool:
        raise NotImplementedError

    def part(self, it: Expression, before: List[Statement]) -> Optional[Expression]:
        """What is in the place of a wanted expression; its statements go into `before`."""
        raise NotImplementedError

    def needs_guard(self, it: Expression) -> bool:
        """Whether a right operand of `&&` or an arm of `?:` may not stay there."""
        del it
        return False

    def has(self, it: Optional[Node]) -> bool:
        """Whether something below is wanted."""
        if it is None:
            return False
        found = self.known.get(id(it))
        if found is None:
            found = self.wanted(it) or any(self.has(each) for each in children(it))
            self.known[id(it)] = found
            self.kept_alive.append(it)
        return found

    def fresh(self, kind: Kind, word: str = "value") -> Variable:
        return Variable(word, kind)

    # expressions

    def sequence(self, parts: Sequence[Expression], before: List[Statement]) -> List[Expression]:
        """Expressions in the order in which they are computed."""
        out: List[Expression] = []
        for it in parts:
            at = len(before)
            made = self.expression(it, before)
            out = [*self.settled(out, at, before), made]
        return out

    def settled(self, values: Sequence[Expression], at: int, before: List[Statement]) -> List[Expression]:
        """Values from before the statements that follow `at`; those that these change are kept in variables before them."""
        moved, out = before[at:], []
        for it in values:
            if moved and not is_stable(it, moved):
                before.insert(at, declare(variable := self.fresh(it.kind), it))
                at, it = at + 1, name(variable)
            out.append(it)
        return out

    def once_only(self, it: Expression, before: List[Statement], word: str = "value") -> Expression:
        """An expression that may be used several times: one with effects is kept in a variable."""
        if is_pure(it):
            return it
        before.append(declare(variable := self.fresh(it.kind, word), it))
        return name(variable)

    def expression(self, it: Expression, before: List[Statement]) -> Expression:
        if not self.has(it):
            return it
        if self.wanted(it):
            made = self.part(it, before)
            if made is not None:
                return made
        if isinstance(it, Binary) and it.sign in ("&&", "||") and self.has(it.right):
            return self.logical(it, before)
        if isinstance(it, Choose) and (self.has(it.then) or self.has(it.other)):
            return self.conditional(it, before)
        if isinstance(it, Assign):
            value, *place = self.sequence([it.value, *indices(it.target)], before)
            return replaced(it, target=with_indices(it.target, place), value=value)
        if isinstance(it, Comma):
            left = self.expression(it.left, before)
            if not is_pure(left) or isinstance(left, (Assign, Step)):
                before.append(Evaluate(left))
            return self.expression(it.right, before)
        return self.with_parts(it, before)

    def apart(self, it: Expression, before: List[Statement]) -> Expression:
        """An expression that is computed only in some cases, so that nothing of it follows the whole statement."""
        after, self.after = self.after, None
        made = self.expression(it, before)
        self.after = after
        return made

    def with_parts(self, it: Expression, before: List[Statement]) -> Expression:
        """An expression with its operands anew."""
        inner = [each for each in children(it) if isinstance(each, Expression)]
        made = iter(self.sequence(inner, before))
        return mapped(it, lambda each: next(made) if isinstance(each, Expression) else each)

    def logical(self, it: Binary, before: List[Statement]) -> Expression:
        """`a && b` where something leaves b: b is computed only where a holds."""
        left = self.expression(it.left, before)
        inner: List[Statement] = []
        right = self.apart(it.right, inner)
        if not inner and not self.needs_guard(right):
            return replaced(it, left=left, right=right)
        flag = self.fresh(BOOL, "is_so")
        test = name(flag) if it.sign == "&&" else negated(name(flag))
        before += [declare(flag, left), If(test, block([*inner, assign(name(flag), right)]))]
        return name(flag)

    def conditional(self, it: Choose, before: List[Statement]) -> Expression:
        test = self.expression(it.test, before)
        then, other = [], []  # type: List[Statement], List[Statement]
        first, second = self.apart(it.then, then), self.apart(it.other, other)
        if not then and not other and not self.needs_guard(first) and not self.needs_guard(second):
            return replaced(it, test=test, then=first, other=second)
        variable = self.fresh(it.kind)
        before += [declare(variable), If(test, block([*then, assign(name(variable), first)]), block([*other, assign(name(variable), second)]))]
        return name(variable)


def unfolded(it: Expression) -> Expression:
    """`!(a && b)` as `!a || !b`, and the other way round."""
    if isinstance(it, Unary) and it.sign == "!" and isinstance(it.operand, Binary) and it.operand.sign in ("&&", "||"):
        sign = "||" if it.operand.sign == "&&" else "&&"
        return Binary(BOOL, sign, unfolded(negated(it.operand.left)), unfolded(negated(it.operand.right)))
    return it


def indices(place: Expression) -> List[Expression]:
    """The indices of a place, the outermost array first."""
    if isinstance(place, Index):
        return [*indices(place.base), place.index]
    return indices(place.base) if isinstance(place, Field) else [] if isinstance(place, Name) else [place]


def with_indices(place: Expression, found: List[Expression]) -> Expression:
    """A place with other indices."""
    if isinstance(place, Index):
        return replaced(place, base=with_indices(place.base, found[:-1]), index=found[-1]) if found[-1] is not place.index or len(found) > 1 else place
    if isinstance(place, Field):
        return replaced(place, base=with_indices(place.base, found)) if found else place
    return place if isinstance(place, Name) or not found else found[0]

