"""Bursts over an `async_mmap`: loops in which requests are made in order, and answers come in the same order, are loops over a memory: `m[i]` for a load, `m[i] = e` for a store."""
from typing import Dict, List, NamedTuple, Optional, Sequence, Tuple

from ..faults import Refused
from ..tree.kinds import BOOL, Carrier
from ..tree.making import assign, block, both, declare, name, terms
from ..tree.nodes import Assign, Expression, Field, Index, Name, Node, Null, Number, Operation, Step, Unary
from ..tree.program import Program, Variable
from ..tree.statements import Declare, Evaluate, For, If, Statement, While
from ..tree.walking import assigned, found, replaced, rewritten, root, substituted, used, walk


from .control import commas
from .hoisting import operates
from .polls import is_idle

CHANNELS = ("read_addr", "read_data", "write_addr", "write_data", "write_resp")
INSTEAD = "a burst as TAPA's documentation writes it, or an index: `m[j]` reads, `m[j] = e;` stores"


class Use(NamedTuple):
    """An operation on a channel of a memory."""

    memory: Variable
    channel: str
    operation: Operation


def use_of(it: Node) -> Optional[Use]:
    if isinstance(it, Operation) and isinstance(it.stream, Field) and it.stream.name in CHANNELS:
        memory = root(it.stream.base)
        if memory is not None:
            return Use(memory, it.stream.name, it)
    return None


def uses(*nodes: Optional[Node]) -> List[Use]:
    return [each for node in nodes for it in walk(node) for each in [use_of(it)] if each is not None]


def is_guard(it: Expression) -> bool:
    """A test whether something may be asked, taken or given now."""
    one = it.operand if isinstance(it, Unary) and it.sign == "!" else it
    if not isinstance(one, Operation):
        return False
    return one.method in ("empty", "full") if one is not it else one.method in ("try_read", "try_write")


def counter(parts: Sequence[Statement]) -> Optional[Variable]:
    """The variable that statements count up, the last one."""
    out = None
    for it in parts:
        inner = it.expression if isinstance(it, Evaluate) else None
        if isinstance(inner, Step) and inner.sign == "++" and isinstance(inner.target, Name) or isinstance(inner, Assign) and inner.sign == "+=" and isinstance(inner.target, Name):
            out = inner.target.variable
    return out


def increment(parts: Sequence[Statement], variable: Variable) -> Optional[int]:
    """By how much a counter grows, where that is a number."""
    for it in parts:
        inner = it.expression if isinstance(it, Evaluate) else None
        if isinstance(inner, Step) and root(inner.target) is variable:
            return 1
        if isinstance(inner, Assign) and root(inner.target) is variable:
            return int(inner.value.value) if isinstance(inner.value, Number) and inner.sign == "+=" else None
    return None


class Burst:
    """One loop: its requests, its work and its answers of stores."""

    def __init__(self, program: Program, loop: Statement, outside: Sequence[Statement]) -> None:
        assert isinstance(loop, (For, While))
        self.program, self.loop, self.outside = program, loop, outside
        self.requests: Dict[Variable, If] = {}
        self.done: Dict[Variable, If] = {}
        self.work: Optional[If] = None
        self.idle: List[Statement] = []

    def refused(self, at: int, why: str) -> Refused:
        return Refused(at, f"channels of `{', '.join(sorted({it.memory.name for it in uses(self.loop)}))}`: {why}", INSTEAD)

    def sort(self) -> None:
        """What each statement of the body does."""
        for it in self.loop.body.parts:
            found_ = uses(it)
            channels = {each.channel for each in found_}
            if not found_ and is_idle(it):
                self.idle.append(it)
            elif isinstance(it, If) and it.other is None and channels == {"read_addr"}:
                self.requests[found_[0].memory] = it
            elif isinstance(it, If) and it.other is None and channels == {"write_resp"}:
                self.done[found_[0].memory] = it
            elif isinstance(it, If) and it.other is None and channels and channels <= {"read_data", "write_addr", "write_data"} and self.work is None:
                self.work = it
            else:
                raise self.refused(it.at, "this loop does something else, too")
        if self.work is None or isinstance(self.loop, For) and self.loop.step is not None:
            raise self.refused(self.loop.at, "no statement takes what was read, or writes")

    def first(self, variable: Variable) -> Optional[Expression]:
        """The value with which a counter begins: the last one that it gets before the loop."""
        out: Optional[Expression] = None
        for it in [*self.outside, self.loop.start if isinstance(self.loop, For) else None]:
            sets = [each.value for each in commas(it.expression) if isinstance(each, Assign) and each.sign == "=" and root(each.target) is variable] if isinstance(it, Evaluate) else []
            sets += [each.first or Number(variable.kind, 0) for each in it.locals if each.variable is variable] if isinstance(it, Declare) else []
            out = sets[-1] if sets else name(variable) if variable in assigned(it) else out
        return out

    def alike(self, one: Variable, other: Variable, steps: Tuple[Sequence[Statement], Sequence[Statement]]) -> bool:
        """Whether two counters begin with one value and grow by the same number."""
        from ..tree.folding import constant
        starts = [self.first(it) for it in (one, other)]
        values = [constant(it) if it is not None else None for it in starts]
        same = values[0] is not None and values[0] == values[1] or starts[0] is not None and starts[1] is not None and said(starts[0]) == said(starts[1])
        grown = [increment(parts, it) for parts, it in zip(steps, (one, other))]
        return same and grown[0] is not None and grown[0] == grown[1]

    def made(self) -> List[Statement]:
        """The loop over a memory."""
        self.sort()
        work = self.work
        assert work is not None
        count = counter(work.then.parts)
        if count is None:
            raise self.refused(work.at, "no counter says how many were taken")
        names: Dict[Variable, Expression] = {}
        gone: List[Variable] = []
        addresses: Dict[Variable, Expression] = {}
        for memory, request in self.requests.items():
            asked = counter(request.then.parts)
            if asked is None or not self.alike(asked, count, (request.then.parts, work.then.parts)):
                raise self.refused(request.at, "the requests and the answers are not counted alike")
            call = next(each.operation for each in uses(request) if each.operation.method in ("write", "try_write"))
            address = substituted(call.arguments[0], {asked: name(count)})
            if used(address) & (assigned(self.loop.body) - {count}):
                raise self.refused(call.at, "an address depends on what the loop computes")
            addresses[memory] = address
            gone.append(asked)
            names[asked] = name(count)
        for memory, done in self.done.items():
            finished = next((root(each.target) for each in found(done, Assign) if each.sign == "+="), None) or counter(done.then.parts)
            if finished is None or self.first(finished) is None:
                raise self.refused(done.at, "no counter says how many were stored")
            gone.append(finished)
            names[finished] = name(count)
        self.check(addresses)
        body = self.body(work, addresses)
        return self.whole(body, names, gone, count)

    def check(self, addresses: Dict[Variable, Expression]) -> None:
        assert self.work is not None
        for memory, channel, it in uses(self.work):
            if channel == "read_data" and memory not in addresses:
                raise self.refused(it.at, f"`{memory.name}` is asked nowhere in this loop")
            if channel in ("write_addr", "write_data") and memory not in self.done:
                raise self.refused(it.at, f"what `write_resp` of `{memory.name}` answers is not taken in this loop")
            if channel in ("write_addr", "write_data") and memory in addresses:
                raise self.refused(it.at, f"`{memory.name}` is read and written in one loop")

    def body(self, work: If, addresses: Dict[Variable, Expression]) -> List[Statement]:
        """What is done for each answer or store, without the tests whether it may be done now."""
        tests = [it for it in terms(work.test) if not is_guard(it)]
        front: List[Statement] = []
        full: List[str] = []
        some: List[str] = []
        for it in terms(work.test):
            one = it.operand if isinstance(it, Unary) else it
            found_ = use_of(one)
            if isinstance(one, Operation) and is_guard(it) and one.method == "try_read":
                value: Expression = Index(one.arguments[0].kind, memory_name(found_.memory), addresses[found_.memory]) if found_ is not None else Operation(one.arguments[0].kind, "read", one.stream)
                front.append(assign(one.arguments[0], value))
            elif isinstance(one, Operation) and one.method == "full":
                full.append(said(one.stream))
            elif isinstance(one, Operation) and one.method == "empty":
                some.append(said(one.stream))
            elif isinstance(one, Operation) and one.method == "try_write":
                front.append(Evaluate(replaced(one, method="write")))
        parts = stored([*front, *(rewritten(it, lambda node: written(node, full) or taken(node, some)) for it in work.then.parts)], self)
        inner = [rewritten(it, lambda node: loaded(node, addresses)) for it in parts]
        if tests and not all(said(it) == said(self.loop.test) for it in tests):
            return [If(both(tests), block(inner, work.then))]
        return inner

    def whole(self, body: List[Statement], names: Dict[Variable, Expression], gone: List[Variable], count: Variable) -> List[Statement]:
        self.program.note(self.loop.at, "a burst over an `async_mmap`", "accesses of a memory")
        test = substituted(self.loop.test, names) if self.loop.test is not None else None
        if any(isinstance(it, If) and said(it.test) == said(test) for it in body):
            body = [each for it in body for each in (it.then.parts if isinstance(it, If) and said(it.test) == said(test) and it.other is None else [it])]
        start = self.loop.start if isinstance(self.loop, For) else None
        if isinstance(start, Declare):
            kept = tuple(it for it in start.locals if it.variable not in gone or it.variable is count)
            start = replaced(start, locals=kept) if kept else None
        front: List[Statement] = []
        if isinstance(start, Evaluate):
            front, start = [Evaluate(each) for each in commas(start.expression) if not isinstance(each, Assign) or root(each.target) not in set(gone) - {count}], None
        after = [assign(name(it), name(count)) for it in gone if it is not count and self.first(it) is not None and not is_in(it, self.loop)]
        self.program.gone |= set(gone) - {count}
        whole: Statement = For(start, test, None, block([*self.idle, *body], self.loop.body)) if start is not None else While(test if test is not None else Number(BOOL, 1), block([*self.idle, *body], self.loop.body))
        whole.at = self.loop.at
        return [*front, whole, *after]


def is_in(variable: Variable, loop: Statement) -> bool:
    """Whether a variable is declared in the head of a loop."""
    return isinstance(loop, For) and isinstance(loop.start, Declare) and any(it.variable is variable for it in loop.start.locals)


def said(it: Optional[Node]) -> str:
    """The words of an expression, to compare it."""
    from ..write.expressions import plain
    return plain(it) if isinstance(it, Expression) else ""


def memory_name(it: Variable) -> Name:
    kind = it.kind
    return Name(Carrier("mmap", kind.element, 0, 2, kind.is_const) if isinstance(kind, Carrier) else kind, it)


def written(it: Node, full: List[str]) -> Optional[Node]:
    if isinstance(it, Operation) and it.method == "try_write" and (said(it.stream) in full or use_of(it) is not None):
        return replaced(it, method="write")
    return None


def taken(it: Node, some: List[str]) -> Optional[Node]:
    """`read(nullptr)` of a stream that has a token."""
    if isinstance(it, Operation) and it.method in ("read", "try_read") and len(it.arguments) == 1 and said(it.stream) in some and use_of(it) is None:
        if it.method == "read" and isinstance(it.arguments[0], Null):
            return Operation(it.kind, "read", it.stream)
    return None


def loaded(it: Node, addresses: Dict[Variable, Expression]) -> Optional[Node]:
    """What is read from a channel as a cell of the memory."""
    found_ = use_of(it)
    if found_ is not None and found_.channel == "read_data" and found_.operation.method in ("read", "peek"):
        return Index(found_.operation.kind, memory_name(found_.memory), addresses[found_.memory])
    return None


def stored(parts: Sequence[Statement], burst: "Burst | None") -> List[Statement]:
    """An address and a value that are written one after the other as one store."""
    out: List[Statement] = []
    waiting: Dict[Variable, Tuple[str, Expression, int]] = {}
    for it in parts:
        found_ = use_of(it.expression) if isinstance(it, Evaluate) else None
        if found_ is None or found_.channel not in ("write_addr", "write_data"):
            if burst is not None and any(each.channel in ("write_addr", "write_data") for each in uses(it)):
                raise burst.refused(it.at, "an address and its value are not written side by side")
            out.append(it)
            continue
        value = found_.operation.arguments[0]
        other = waiting.pop(found_.memory, None)
        if other is None or other[0] == found_.channel:
            waiting[found_.memory] = (found_.channel, value, len(out))
            continue
        first, after = other[1], [*out[other[2]:], Evaluate(value)]
        if used(first) & assigned(*after) or assigned(first) & used(*after) or operates(first) and operates(*after):
            out.insert(other[2], declare(kept := Variable("first", first.kind), first))
            first = name(kept)
        address, data = (value, first) if found_.channel == "write_addr" else (first, value)
        kind = found_.memory.kind
        element = kind.element if isinstance(kind, Carrier) else data.kind
        made = assign(Index(element, memory_name(found_.memory), address), data)
        made.at = it.at
        out.append(made)
    if waiting:
        raise Refused(parts[0].at, "an address without its value is written", INSTEAD)
    return out
