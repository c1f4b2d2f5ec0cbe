"""An upper-level task has streams and one chain with an invoke for each instance, each with its own elements, numbers and memories."""
from typing import Dict, List, Optional, Sequence, Tuple

from ..faults import Refused
from ..tree.folding import constant, simplified
from ..tree.kinds import SEQ, TASK, Carrier, Whole, is_many
from ..tree.making import declare, name, number
from ..tree.nodes import Cast, Expression, Index, Name, Number
from ..tree.program import Function, Program, Variable
from ..tree.statements import Block, Chain, Declare, Empty, For, If, Invoke, Marked, Statement, While
from ..tree.walking import dressed, found, has, replaced, substituted, used
from .elements import Elements
from .marking import marked
from .unrolling import propagated, trip

MOST = 512


def is_upper(function: Function) -> bool:
    return has(function.body, Chain)


def is_kept(chain: Chain) -> bool:
    """Whether a chain is of the language as it is."""
    if chain.text is None:
        return False
    for it in chain.invokes:
        for argument in it.arguments:
            if argument.kind == SEQ or isinstance(argument, Name) and isinstance(argument.kind, Carrier) and (argument.variable.role == "parameter" and is_many(argument.kind)):
                return False
            if isinstance(argument, Name) and is_many(argument.kind) and (it.count == 1 or getattr(argument.kind, "length", 0) != it.count):
                return False
            if isinstance(argument, Index) and isinstance(argument.base, Name) and argument.base.variable.role == "parameter":
                return False
        if any(is_many(each.kind) for each in it.function.parameters):
            return False
    return True


class Upper:
    """One upper-level task; `parameters` are those of all tasks before arrays became elements."""

    def __init__(self, program: Program, elements: Elements, parameters: Dict[int, List[Variable]]) -> None:
        self.program, self.elements, self.parameters = program, elements, parameters
        self.taken: Dict[Tuple[Variable, str], int] = {}

    def run(self, function: Function) -> None:
        body = function.body
        assert body is not None
        self.taken = {}
        made = simplified(propagated(simplified(self.unrolled(body))))
        assert isinstance(made, Block)
        chains = list(found(made, Chain))
        if len(chains) == 1 and is_kept(chains[0]) and made is body:
            return
        front: List[Statement] = []
        invokes: List[Invoke] = []
        last: Optional[Statement] = None
        for it in self.flat(made.parts):
            if isinstance(it, Chain):
                try:
                    invokes += [each for one in it.invokes for each in self.instances(one)]
                    last = it if last is None else last
                except Refused as why:
                    front.append(marked(self.program, it, why))
            elif isinstance(it, Declare) and all(each.variable.kind == TASK for each in it.locals) or isinstance(it, Empty):
                continue
            elif isinstance(it, Declare) and all(each.variable.role == "stream" for each in it.locals) or isinstance(it, Marked):
                front.append(it)
            else:
                front.append(marked(self.program, it, Refused(it.at, "a statement in an upper-level task", "a constant of the file, a scalar parameter, or a task that computes")))
        if len(invokes) > MOST:
            raise Refused(body.at, f"{len(invokes)} instances in one task", "at most 512")
        if last is not None and invokes:
            front += dressed([Chain(tuple(invokes))], last)
        function.body = replaced(body, parts=tuple(front))

    def flat(self, parts: Sequence[Statement]) -> List[Statement]:
        """Statements with those of blocks."""
        return [each for it in parts for each in (self.flat(it.parts) if isinstance(it, Block) else [it])]

    def unrolled(self, it: Block) -> Block:
        """Loops around invokes written out."""
        parts: List[Statement] = []
        for part in it.parts:
            if isinstance(part, For) and has(part, Chain):
                found_ = trip(part, MOST)
                if found_ is None:
                    parts.append(marked(self.program, part, Refused(part.at, "a loop around invokes whose ends are not constant", "a constant number of instances")))
                    continue
                self.program.note(part.at, "a loop around invokes", "an invoke for each instance")
                inner = self.unrolled(part.body)
                for value in found_.values:
                    made = substituted(inner, {found_.variable: number(value)})
                    parts += list(made.parts)
            elif isinstance(part, Block) and has(part, Chain):
                parts.append(self.unrolled(part))
            elif isinstance(part, (If, While)) and has(part, Chain) and constant(part.test) is None:
                parts.append(marked(self.program, part, Refused(part.at, "an invoke under a condition", "the condition within the task")))
            elif isinstance(part, If) and has(part, Chain):
                arm = part.then if constant(part.test) else part.other
                parts += list(self.unrolled(arm).parts) if arm is not None else []
            else:
                parts.append(part)
        same = len(parts) == len(it.parts) and all(a is b for a, b in zip(parts, it.parts))
        return it if same else replaced(it, parts=tuple(parts))

    def instances(self, it: Invoke) -> List[Invoke]:
        """One invoke for each instance."""
        parameters = self.parameters[id(it.function)]
        if len(it.function.parameters) == len(it.arguments):   # an array of streams by its elements
            parameters = list(it.function.parameters)
        if len(parameters) != len(it.arguments):
            raise Refused(it.at, f"`{it.function.name}` takes {len(parameters)} arguments, and gets {len(it.arguments)}")
        if it.count < 1 or it.count > MOST:
            raise Refused(it.at, f"{it.count} instances of `{it.function.name}`", "from 1 to 512")
        if it.count > 1 and any(argument.kind == SEQ for argument in it.arguments):
            self.program.note(it.at, "`tapa::seq`", "a number for each instance")
        out: List[Invoke] = []
        for number_ in range(it.count):
            given: List[Expression] = []
            for parameter, argument in zip(parameters, it.arguments):
                given += self.argument(argument, parameter, number_)
            new = Invoke(it.function, it.is_detached, 1, tuple(given))
            new.at = it.at
            out.append(self.specialised(new))
        return out

    def argument(self, it: Expression, parameter: Variable, turn: int) -> List[Expression]:
        """What one parameter of an instance gets."""
        while isinstance(it, Cast):
            it = it.operand
        if it.kind == SEQ:
            return [number(turn)]
        wanted = parameter.kind
        if isinstance(it, Name) and is_many(it.kind) and isinstance(wanted, Carrier):
            count = wanted.length if is_many(wanted) else 1
            sort = wanted.sort.rstrip("s").replace("async_", "")
            self.program.note(it.at, f"the array `{it.variable.name}` as an argument", "its elements")
            return [self.next(it, sort) for _ in range(count)]
        if isinstance(it, Index) and isinstance(it.base, Name) and is_many(it.base.kind):
            at = constant(it.index)
            if at is None:
                raise Refused(it.at, "an element by an index that is no constant", "a constant index")
            return [self.element(it.base, at)]
        if isinstance(it.kind, Carrier):
            return [it]
        known = constant(it)
        if known is not None and not isinstance(it, Name) and isinstance(wanted, Whole):
            made = Number(it.kind if isinstance(it.kind, Whole) else wanted, known)
            made.text = it.text
            return [made]
        return [it]

    def next(self, it: Name, sort: str) -> Expression:
        """The next element of an array, for readers, writers and memories apart."""
        key = (it.variable, sort)
        at = self.taken.get(key, 0)
        self.taken[key] = at + 1
        return self.element(it, at)

    def element(self, it: Name, at: int) -> Expression:
        kind = it.kind
        assert isinstance(kind, Carrier)
        if not 0 <= at < kind.length:
            raise Refused(it.at, f"`{it.variable.name}` has {kind.length} elements, and element {at} is asked for", "a longer array")
        if it.variable in self.elements.of:
            return name(self.elements.of[it.variable][at])
        made = Index(Carrier(kind.sort[:-1], kind.element, 0, kind.depth, kind.is_const), it, number(at))
        made.at = it.at
        return made

    def specialised(self, it: Invoke) -> Invoke:
        """An invoke whose arguments are names and constants; what is computed from scalars is computed in a task of its own."""
        if all(isinstance(each, (Name, Number)) or isinstance(each, Index) and isinstance(each.kind, Carrier) for each in it.arguments):
            return it
        function = it.function
        if is_upper(function):
            raise Refused(it.at, "an argument that is computed, of an upper-level task", "a scalar parameter")
        made = Function(function.name, function.result, [], function.body, function.at, function.end, is_instance=True, key=function.key)
        front: List[Statement] = []
        given: List[Expression] = []
        for parameter, argument in zip(list(function.parameters), it.arguments):
            if isinstance(argument, (Name, Number)) or isinstance(argument.kind, Carrier):
                made.parameters.append(parameter)
                given.append(argument)
                continue
            scalars = sorted(used(argument), key=lambda each: each.at)
            fresh = [Variable(each.name, each.kind, "parameter", at=each.at) for each in scalars]
            made.parameters += fresh
            given += [name(each) for each in scalars]
            front.append(declare(Variable(parameter.name, parameter.kind), substituted(argument, {a: name(b) for a, b in zip(scalars, fresh)})))
            assert isinstance(front[-1], Declare) and function.body is not None
            made.body = substituted(made.body or function.body, {parameter: name(front[-1].locals[0].variable)})
            self.program.note(it.at, "an argument that is computed", f"a task `{function.name}` that computes it")
        assert made.body is not None
        made.body = replaced(made.body, parts=(*front, *made.body.parts))
        self.program.tasks.insert(self.program.tasks.index(function) + 1, made)
        for item in self.program.items:
            if function in item.functions:
                item.functions.append(made)
        return Invoke(made, it.is_detached, 1, tuple(given))


def run(program: Program, elements: Elements, parameters: Dict[int, List[Variable]]) -> None:
    upper = Upper(program, elements, parameters)
    for function in list(program.tasks):
        if is_upper(function) and function.body is not None:
            try:
                upper.run(function)
            except Refused as why:
                function.body = replaced(function.body, parts=tuple([marked(program, function.body.parts[0], why)]))
    if not program.marks:
        invoked = {id(it.function) for task in program.tasks for it in found(task.body, Invoke)} | {id(program.top)}
        for item in program.items:
            item.functions = [it for it in item.functions if id(it) in invoked]
        program.tasks = [it for it in program.tasks if id(it) in invoked]
