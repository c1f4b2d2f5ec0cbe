"""Walks over trees, and makes them anew with parts changed."""
import copy
from typing import Any, Callable, Dict, Iterator, List, Optional, Sequence, Tuple, Type, TypeVar, Union

from .kinds import Array
from .nodes import Assign, Call, Expression, Name, Node, Operation, Step
from .program import Variable
from .statements import Block, Local, Statement

N = TypeVar("N", bound=Node)
Change = Callable[[Node], Optional[Node]]
Classes = Union[Type[Node], Tuple[Type[Node], ...]]
PARTS: Dict[type, Tuple[str, ...]] = {}


def names_of_parts(node: Node) -> Tuple[str, ...]:
    """The fields of a node's class."""
    found = PARTS.get(type(node))
    if found is None:
        found = PARTS[type(node)] = tuple(getattr(type(node), "__dataclass_fields__", ()))
    return found


def children(node: Node) -> List[Node]:
    """The nodes right below a node, in the order of the text."""
    out: List[Node] = []
    for name in names_of_parts(node):
        it = getattr(node, name)
        if isinstance(it, Node):
            out.append(it)
        elif isinstance(it, tuple):
            out += [each for each in it if isinstance(each, Node)]
    return out


def walk(node: Optional[Node]) -> Iterator[Node]:
    """A node and all below it, before those that follow."""
    stack = [node] if node is not None else []
    while stack:
        it = stack.pop()
        yield it
        stack += reversed(children(it))


def found(node: Optional[Node], classes: "Type[N]") -> Iterator[N]:
    """All nodes of a class."""
    return (it for it in walk(node) if isinstance(it, classes))


def has(node: Optional[Node], classes: Classes) -> bool:
    return any(isinstance(it, classes) for it in walk(node))


def replaced(node: N, **fields: Any) -> N:
    """A copy of a node with other parts; it is no longer as it was written."""
    made = copy.copy(node)
    made.__dict__.update(fields)
    made.text = None
    return made


def mapped(node: N, change: Callable[[Node], Node]) -> N:
    """A node with each part changed; the same node where none is."""
    fields: Dict[str, Any] = {}
    for name in names_of_parts(node):
        it = getattr(node, name)
        if isinstance(it, Node):
            new = change(it)
            if new is not it:
                fields[name] = new
        elif isinstance(it, tuple) and any(isinstance(each, Node) for each in it):
            all_ = tuple(change(each) if isinstance(each, Node) else each for each in it)
            if any(new is not old for new, old in zip(all_, it)):
                fields[name] = all_
    return replaced(node, **fields) if fields else node


def rewritten(node: N, change: Change) -> Any:
    """A tree in which `change` answers for nodes, those below first; None keeps a node."""
    def one(it: Node) -> Node:
        made = mapped(it, one)
        new = change(made)
        return made if new is None else new
    return one(node)


def from_above(node: N, change: Change) -> Any:
    """A tree in which `change` answers for nodes, those above first; what it answers is not looked into."""
    def one(it: Node) -> Node:
        new = change(it)
        return mapped(it, one) if new is None else new
    return one(node)


def placed(new: N, old: Node) -> N:
    """Gives a made node the place of the one in whose place it is."""
    if new.at < 0:
        new.at = old.at
    return new


def dressed(parts: Sequence[Statement], old: Statement) -> List[Statement]:
    """Statements in the place of another: the first takes the comments before it, the last the one on its line, and the first of its class its attribute."""
    if len(parts) == 1 and parts[0] is old:
        return [old]
    out: List[Statement] = []
    for it in parts:
        new = copy.copy(it)
        new.before = () if new.before is old.before else new.before
        new.after = "" if new.after is old.after else new.after
        new.at, new.margin = old.at if new.at < 0 else new.at, new.margin or old.margin
        if it is not old or old.before or old.after:
            new.attribute = "" if new.attribute is old.attribute else new.attribute
        out.append(new)
    if out:
        out[0].before, out[-1].after = old.before + out[0].before, out[-1].after or old.after
        same = next((it for it in out if type(it) is type(old)), None)
        if same is not None and old.attribute:
            same.attribute = old.attribute
    return out


def statements(node: N, change: Callable[[Statement], Optional[Sequence[Statement]]]) -> Any:
    """A tree in which `change` answers with statements for those in blocks, those within first; None keeps a statement."""
    def one(it: Node) -> Node:
        made = mapped(it, one)
        if not isinstance(made, Block):
            return made
        parts: List[Statement] = []
        for each in made.parts:
            new = change(each)
            parts += [each] if new is None else dressed(list(new), each)
        same = len(parts) == len(made.parts) and all(new is old for new, old in zip(parts, made.parts))
        return made if same else replaced(made, parts=tuple(parts))
    return one(node)


def root(place: Optional[Expression]) -> Optional[Variable]:
    """The variable that a place is a part of."""
    from .nodes import Bit, Field, Index
    while isinstance(place, (Index, Field, Bit)):
        place = place.base
    return place.variable if isinstance(place, Name) else None


def targets(it: Node) -> Tuple[Optional[Expression], ...]:
    """The places that a node itself assigns: by an operator, by an operation on a stream, or as arguments by reference."""
    if isinstance(it, (Assign, Step)):
        return (it.target,)
    if isinstance(it, Operation):
        return it.arguments if it.method not in ("write", "<<", "try_write", "memcpy", "memset") else (it.stream,) if it.method[:3] == "mem" else ()
    if isinstance(it, Call):
        return (it.target, *(each for parameter, each in zip(it.function.parameters, it.arguments) if isinstance(parameter.kind, Array) or parameter.is_reference and not parameter.is_const))
    return ()


def assigned(*nodes: Optional[Node]) -> "set[Variable]":
    """The variables that are assigned, stepped or declared within, and in what is called there."""
    out, met, left = set(), set(), list(nodes)
    while left:
        for it in walk(left.pop()):
            out |= {variable for place in targets(it) for variable in [root(place)] if variable is not None}
            if isinstance(it, Local):
                out.add(it.variable)
            elif isinstance(it, Call) and it.function not in met:
                met.add(it.function)
                left.append(it.function.body)
    return out


def used(*nodes: Optional[Node]) -> "set[Variable]":
    """The variables that are named within."""
    return {it.variable for node in nodes for it in walk(node) if isinstance(it, Name)}


def counted(node: Optional[Node], variable: Variable) -> int:
    """How often a variable is named."""
    return sum(1 for it in walk(node) if isinstance(it, Name) and it.variable is variable)


def substituted(node: N, names: Dict[Variable, Expression], variables: Optional[Dict[Variable, Variable]] = None) -> Any:
    """A tree with expressions in place of names, and variables in place of those that are declared."""
    fresh = variables or {}

    def change(it: Node) -> Optional[Node]:
        if isinstance(it, Name):
            if it.variable in names:
                return names[it.variable]
            if it.variable in fresh:
                return placed(Name(it.kind, fresh[it.variable]), it)
        if isinstance(it, Local) and it.variable in fresh:
            return placed(Local(fresh[it.variable], it.first), it)
        return None
    return rewritten(node, change)


def declared(node: Optional[Node]) -> List[Variable]:
    """The variables that are declared within."""
    return [it.variable for it in found(node, Local)]


def size(node: Optional[Node]) -> int:
    return sum(1 for _ in walk(node))
