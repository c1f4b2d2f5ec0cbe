"""What takes the place of a function's parameters: the argument itself, or a variable with its value."""
from typing import TYPE_CHECKING, Dict, List, Optional, Sequence

from ..faults import Refused
from ..tree.kinds import FUNCTION, LAMBDA, Array, Carrier, Record
from ..tree.making import cast, declare, name
from ..tree.nodes import Assign, Binary, Braces, Choose, Comma, Expression, Field, Index, Name, Node, Number, Step, This
from ..tree.program import Function, Variable
from ..tree.statements import Statement
from ..tree.walking import assigned, children, counted, declared, has, rewritten, root, size, substituted, targets, used, walk
from .hoisting import indices, is_pure, operates, with_indices

if TYPE_CHECKING:
    from .hoisted import Hoister

ONE_OF, IN_ARMS = "a reference to one of several variables, which changes", "`if` with `else`"


def is_place(it: Expression) -> bool:
    """A variable, a cell or a field."""
    while isinstance(it, (Index, Field)):
        it = it.base
    return isinstance(it, (Name, This))


def is_one_of(it: Expression) -> bool:
    """A place that a test or an assignment gives."""
    return all(is_place(each) or is_one_of(each) for each in (it.then, it.other)) if isinstance(it, Choose) else isinstance(it, (Assign, Comma)) or isinstance(it, Step) and it.is_prefix


def once(it: Node, variable: Variable) -> bool:
    """Whether an expression names a variable exactly once, and in each case."""
    def always(node: Node) -> bool:
        if isinstance(node, Name):
            return node.variable is variable
        if isinstance(node, Choose):
            return always(node.test)
        if isinstance(node, Binary) and node.sign in ("&&", "||"):
            return always(node.left)
        return any(always(each) for each in children(node))
    return counted(it, variable) == 1 and always(it)


class Binding:
    """The expressions in the place of one call's parameters."""

    def __init__(self, hoister: "Hoister", function: Function, before: List[Statement]) -> None:
        self.hoister, self.function, self.before = hoister, function, before
        self.names: Dict[Variable, Expression] = {}
        self.this: Optional[Expression] = None
        self.changed: "set[Variable]" = set()

    def bind(self, target: Optional[Expression], given: Sequence[Expression], whole: Optional[Expression]) -> None:
        """Finds what takes the place of each parameter; `whole` is the body where that is one expression."""
        function = self.function
        body = whole if whole is not None else function.body
        inner = assigned(function.body)
        pairs = list(zip(function.parameters, given))
        self.changed = {it for it in inner if it not in function.parameters}
        for parameter, argument in pairs:
            of = root(argument) if is_place(argument) else None
            if parameter in inner and of is not None and (parameter.is_reference or isinstance(parameter.kind, Array)):
                self.changed.add(of)
        if target is not None and has_this_assigned(function):
            of = root(target)
            if of is not None:
                self.changed.add(of)
        if target is not None:
            self.this = self.place(target) if is_place(target) else self.kept(Variable("value", target.kind), target)
        effects = [argument for _, argument in pairs if not is_pure(argument)]
        for parameter, argument in pairs:
            self.names[parameter] = self.one(parameter, argument, body, inner, whole is not None and len(effects) == 1)

    def one(self, parameter: Variable, argument: Expression, body: Optional[Node], inner: "set[Variable]", is_single: bool) -> Expression:
        if isinstance(parameter.kind, (Carrier, Array)) or parameter.kind in (LAMBDA, FUNCTION):
            return self.place(argument)
        if body is not None and not counted(body, parameter) and parameter not in inner and is_pure(argument):
            return argument
        is_same = parameter.kind == argument.kind
        if parameter.is_reference and is_place(argument) and is_same:
            return self.place(argument)
        if parameter.is_reference and is_same and is_one_of(argument) and (parameter in inner or used(argument) & self.changed):
            raise Refused(argument.at, ONE_OF, IN_ARMS)
        value = argument if is_same or isinstance(parameter.kind, Record) else cast(parameter.kind, argument)
        if isinstance(value, Braces):
            return self.kept(parameter, value)
        if parameter in inner or used(argument) & self.changed:
            return self.kept(parameter, value)
        if is_pure(argument):
            is_short = isinstance(argument, (Name, Number)) or size(argument) <= 3 or body is not None and counted(body, parameter) <= 1
            return value if is_short else self.kept(parameter, value)
        if is_single and body is not None and not operates(body) and once(body, parameter):
            return value
        return self.kept(parameter, value)

    def place(self, it: Expression) -> Expression:
        """A place whose indices do not change within the body."""
        found = indices(it)
        made = []
        for each in found:
            if used(each) & self.changed or not is_pure(each):
                each = self.kept(Variable("index", each.kind), each)
            made.append(each)
        return with_indices(it, made) if any(new is not old for new, old in zip(made, found)) else it

    def kept(self, variable: Variable, value: Expression) -> Expression:
        """A variable with the value of an argument."""
        new = Variable(variable.name, variable.kind)
        self.before.append(declare(new, value))
        return name(new)

    def put(self, it: Node) -> "Any":
        """A part of the function with all in its place; what it declares is new."""
        fresh = {each: Variable(each.name, each.kind, each.role, each.is_const, each.is_reference, each.at) for each in declared(it)}
        made = substituted(it, self.names, fresh)
        if self.this is None or not has(made, This):
            return made
        return rewritten(made, lambda node: self.this if isinstance(node, This) else None)


def has_this_assigned(function: Function) -> bool:
    """Whether a method changes its object."""
    for place in (each for it in walk(function.body) for each in targets(it)):
        while isinstance(place, (Index, Field)):
            place = place.base
        if isinstance(place, This):
            return True
    return False


from typing import Any  # noqa: E402
