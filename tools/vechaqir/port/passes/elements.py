"""Arrays of streams and memories as parameters: one parameter for each element. An element by a computed index is a choice among them, by as many tests as the number of elements has bits."""
from typing import Callable, Dict, List, Optional

from ..faults import Refused
from ..tree.folding import constant
from ..tree.kinds import BOOL, Carrier, Plain, is_many
from ..tree.making import assign, binary, block, declare, name, number
from ..tree.nodes import Assign, Expression, Index, Name, Node, Operation
from ..tree.program import Function, Program, Variable
from ..tree.statements import Evaluate, If, Statement
from ..tree.walking import found, from_above, rewritten
from .hoisted import Hoister
from .hoisting import is_pure


class Elements:
    """The parameters of all tasks by elements."""

    def __init__(self, program: Program) -> None:
        self.of: Dict[Variable, List[Variable]] = {}
        for task in program.tasks:
            made: List[Variable] = []
            for it in task.parameters:
                made += self.split(it) if is_many(it.kind) else [it]
                if is_many(it.kind):
                    program.note(it.at, "a parameter of streams or memories", "one for each element")
            task.parameters = made

    def split(self, it: Variable) -> List[Variable]:
        assert isinstance(it.kind, Carrier)
        kind = Carrier(it.kind.sort[:-1], it.kind.element, 0, 2, it.kind.is_const)
        self.of[it] = [Variable(f"{it.name}_{at}", kind, it.role, it.is_const, kind.sort != "mmap", it.at, origin=(it, at, None)) for at in range(it.kind.length)]
        return self.of[it]

    def element(self, it: Node) -> Optional[Node]:
        """The parameter of an element with a constant index."""
        if isinstance(it, Index) and isinstance(it.base, Name) and it.base.variable in self.of:
            at = constant(it.index)
            all_ = self.of[it.base.variable]
            if at is not None and 0 <= at < len(all_):
                return name(all_[at])
            if at is not None:
                raise Refused(it.at, f"`{it.base.variable.name}` has no element {at}", "an index below its length")
        return None


def picked(it: Optional[Node]) -> List[Index]:
    """The elements by an index that is computed."""
    return [each for each in found(it, Index) if is_many(each.base.kind) and isinstance(each.base, Name) and constant(each.index) is None]


def said(it: Expression) -> str:
    from ..write.expressions import plain
    return plain(it)


class Chooser(Hoister):
    """Puts choices before what uses an element by a computed index."""

    def __init__(self, program: Program, elements: Elements) -> None:
        super().__init__(program)
        self.elements = elements

    def wanted(self, it: Node) -> bool:
        return isinstance(it, Index) and bool(is_many(it.base.kind)) and isinstance(it.base, Name) and it.base.variable in self.elements.of and constant(it.index) is None

    def needs_guard(self, it: Expression) -> bool:
        return bool(picked(it))

    def expression(self, it: Expression, before: List[Statement]) -> Expression:
        """An operation on a chosen element goes before what uses it."""
        if isinstance(it, Operation) and self.wanted(it.stream) or isinstance(it, Index) and self.wanted(it.base):
            stream = it.stream if isinstance(it, Operation) else it.base
            assert isinstance(stream, Index)
            index = self.expression(stream.index, before)
            index = self.kept(index, before)
            inner = self.sequence(list(it.arguments) if isinstance(it, Operation) else [it.index], before)
            if it.kind == Plain("void"):
                raise Refused(it.at, f"an element of `{said(stream.base)}` by a computed index in a place where no choice can be", "an index that is constant, or a statement of its own")
            variable = self.fresh(it.kind)
            before.append(declare(variable))
            before += self.tree(stream, index, lambda one: [assign(name(variable), self.applied(it, one, inner))])
            return name(variable)
        return super().expression(it, before)

    def applied(self, it: Expression, one: Expression, inner: List[Expression]) -> Expression:
        """The operation on one element."""
        if isinstance(it, Operation):
            return Operation(it.kind, it.method, one, tuple(inner))
        return Index(it.kind, one, inner[0])

    def kept(self, index: Expression, before: List[Statement]) -> Expression:
        if is_pure(index):
            return index
        variable = Variable("which", index.kind)
        before.append(declare(variable, index))
        return name(variable)

    def tree(self, stream: Index, index: Expression, use: Callable[[Expression], List[Statement]]) -> List[Statement]:
        """A tree of `if` over the elements of an array."""
        assert isinstance(stream.base, Name)
        all_ = self.elements.of[stream.base.variable]

        def part(low: int, high: int) -> List[Statement]:
            if high - low == 1:
                return use(name(all_[low]))
            middle = (low + high) // 2
            if index.kind == BOOL and high - low == 2:
                return [If(index, block(part(middle, high)), block(part(low, middle)))]
            test = binary("==", index, number(low)) if high - low == 2 else binary("<", index, number(middle))
            return [If(test, block(part(low, middle)), block(part(middle, high)))]
        return part(0, len(all_))

    def evaluated(self, it: Evaluate) -> List[Statement]:
        """A statement of its own is within each branch as a whole, with all elements of the same index."""
        uses = picked(it.expression)
        inner = it.expression
        is_plain = isinstance(inner, (Operation, Assign)) and all(is_pure(each.index) for each in uses)
        indices = {said(each.index) for each in uses}
        if not is_plain or len(indices) != 1 or not self.is_certain(inner, uses):
            return super().evaluated(it)
        first = uses[0]

        def use(one: Expression) -> List[Statement]:
            assert isinstance(one, Name) and isinstance(first.base, Name)
            at = self.elements.of[first.base.variable].index(one.variable)

            def change(node: Node) -> Optional[Node]:
                if isinstance(node, Index) and node in uses and isinstance(node.base, Name):
                    return name(self.elements.of[node.base.variable][at])
                return None
            return [Evaluate(from_above(inner, change))]
        lengths = {len(self.elements.of[each.base.variable]) for each in uses if isinstance(each.base, Name)}
        return self.tree(first, first.index, use) if len(lengths) == 1 else super().evaluated(it)

    def is_certain(self, it: Expression, uses: List[Index]) -> bool:
        """Whether the elements are used in each case, so that the choice may be made first."""
        from ..tree.nodes import Binary, Choose
        for each in found(it, Choose):
            if any(picked(part) for part in (each.then, each.other)):
                return False
        return not any(each.sign in ("&&", "||") and picked(each.right) for each in found(it, Binary)) and bool(uses)


def run(program: Program, elements: Elements, function: Function) -> None:
    """The body of a leaf with parameters for elements."""
    if function.body is None:
        return
    chooser = Chooser(program, elements)
    from .marking import tolerant

    def change(it: Statement) -> Statement:
        made: Statement = rewritten(it, elements.element)
        return made
    function.body = tolerant(program, chooser.block(function.body), change)
