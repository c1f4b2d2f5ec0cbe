"""Polls of streams. One that does nothing until there is a token or room becomes the operation that waits; exact, since until then no iteration changes anything. All others depend on timing and are marked."""
from typing import List, Optional, Sequence

from ..faults import Refused
from ..tree.kinds import BOOL
from ..tree.making import assign, block, both, name, number, terms
from ..tree.nodes import Assign, Binary, Expression, Field, Name, Node, Null, Operation, Unary
from ..tree.program import Program, Variable
from ..tree.statements import Block, Continue, Declare, Do, Empty, Evaluate, For, If, Statement, While
from ..tree.walking import children, counted, found, has, replaced, rewritten, statements
from .hoisting import is_pure
from .marking import marked

POLLS = ("empty", "full", "try_read", "try_write", "try_peek", "try_eot", "try_open", "try_close")
WAITING = {"try_read": "read", "try_peek": "peek", "try_write": "write", "try_close": "close", "try_open": "open", "try_eot": "eot"}
INSTEAD = {"try_read": "`read()`, which waits; a task that serves several streams takes them in a fixed order, or in the order that a further stream says",
           "empty": "`read()`, which waits; where there are no more tokens the writer closes, and `eot(nullptr)` says so", "full": "`write(e)`, which waits for room"}


def is_channel(it: Expression) -> bool:
    """Whether a stream is a channel of an `async_mmap`."""
    return isinstance(it, Field)


def polls(it: Optional[Node]) -> List[Operation]:
    """The operations that do not wait."""
    return [each for each in found(it, Operation) if not is_channel(each.stream) and (each.method in POLLS or flag_of(each) is not None)] if it is not None else []


def flag_of(it: Operation) -> Optional[Variable]:
    """The flag by which a look says whether there was a token."""
    if it.method in ("read", "peek", "eot") and len(it.arguments) == 1:
        last = it.arguments[0]
        if isinstance(last, Name) and last.kind == BOOL:
            return last.variable
    return None


def waiting(it: Operation) -> Expression:
    """The operation that waits; with an argument that it fills in an assignment."""
    method = WAITING.get(it.method, it.method)
    looks = method in ("peek", "eot")
    if it.method in ("try_read", "try_peek", "try_eot"):
        place = it.arguments[0]
        made: Expression = Assign(place.kind, "=", place, Operation(place.kind, method, it.stream, (Null(it.kind),) if looks else ()))
    elif flag_of(it) is not None:
        made = replaced(it, arguments=(Null(it.kind),) if looks else ())
    else:
        made = Operation(it.kind, method, it.stream, it.arguments)
    made.at = it.at
    return made


def guard(it: Expression) -> Optional[Operation]:
    """The poll that a test is: `!q.empty()`, `!q.full()` or `q.try_..`."""
    if isinstance(it, Unary) and it.sign == "!" and isinstance(it.operand, Operation) and it.operand.method in ("empty", "full") and not is_channel(it.operand.stream):
        return it.operand
    return it if isinstance(it, Operation) and it.method in WAITING and not is_channel(it.stream) else None


def is_idle(it: Statement) -> bool:
    """A statement without effect beyond its own variables."""
    return isinstance(it, Empty) or isinstance(it, Declare) and all(is_pure(each.first) for each in it.locals)


def is_flag(it: Expression, flag: Variable) -> bool:
    return isinstance(it, Name) and it.variable is flag


def skips(it: Statement, flag: Variable) -> bool:
    """`if (!flag) continue;`"""
    return isinstance(it, If) and it.other is None and isinstance(it.test, Unary) and it.test.sign == "!" and is_flag(it.test.operand, flag) and len(it.then.parts) == 1 and isinstance(it.then.parts[0], Continue)


class Polls:
    """The loops and statements of one program."""

    def __init__(self, program: Program) -> None:
        self.program = program

    def change(self, it: Statement) -> Optional[Sequence[Statement]]:
        if isinstance(it, (While, Do)) and polls(it.test):
            made = self.tried(it)
            if made is not None:
                return made
        if isinstance(it, (While, For)) and (isinstance(it, While) or it.step is None) and is_pure_or_look(it.test):
            return self.loop(it)
        return None

    def tried(self, it: Statement) -> Optional[Sequence[Statement]]:
        """A loop that does nothing but try: the operation that waits."""
        assert isinstance(it, (While, Do))
        test = it.test
        inner = list(it.body.parts)
        if isinstance(it, While) and all(isinstance(each, Empty) for each in inner):
            one = test.operand if isinstance(test, Unary) and test.sign == "!" else test
            is_try = isinstance(test, Unary) and isinstance(one, Operation) and one.method in WAITING
            is_look = not isinstance(test, Unary) and isinstance(one, Operation) and one.method in ("empty", "full")
            if isinstance(one, Operation) and not is_channel(one.stream) and (is_try or is_look):
                self.program.note(it.at, f"a loop around `{one.method}`", "the operation that waits")
                return [Evaluate(waiting(one))] if is_try else []
        return None

    def loop(self, it: Statement) -> Optional[Sequence[Statement]]:
        """A loop without a step, in which all stands behind one poll."""
        assert isinstance(it, (While, For))
        eot = self.end_test(it)
        if eot is not None:
            return eot
        body = self.flagged(it.body)
        body = self.guarded(body if body is not None else it.body) or body
        return None if body is None else [replaced(it, body=body)]

    def end_test(self, it: Statement) -> Optional[Sequence[Statement]]:
        """`for (bool v; !q.eot(v) || !v;) { if (!v) continue; .. }`, which TAPA_WHILE_NOT_EOT stands for."""
        if not isinstance(it, (For, While)) or not isinstance(it.test, Binary) or it.test.sign != "||":
            return None
        looks = polls(it.test)
        flag = flag_of(looks[0]) if len(looks) == 1 and looks[0].method == "eot" else None
        parts = list(it.body.parts)
        if flag is None or not parts or not skips(parts[0], flag) or any(counted(each, flag) for each in parts[1:]):
            return None
        sides = [it.test.left, it.test.right]
        is_both = any(isinstance(each, Unary) and is_flag(each.operand, flag) for each in sides) and any(isinstance(each, Unary) and each.operand is looks[0] for each in sides)
        if not is_both:
            return None
        self.program.note(it.at, "a loop over `eot` with a flag", "`eot(nullptr)`, which waits")
        test = Unary(BOOL, "!", waiting(looks[0]))
        front = [it.start] if isinstance(it, For) and it.start is not None and not (isinstance(it.start, Declare) and all(each.variable is flag for each in it.start.locals)) else []
        return [*front, While(test, block(parts[1:], it.body))]

    def flagged(self, body: Block) -> Optional[Block]:
        """A look with a flag before all that has an effect, and right after it the `if` that goes on without a token."""
        parts = list(body.parts)
        for at, it in enumerate(parts[:-1]):
            looks = polls(it)
            flag = flag_of(looks[0]) if len(looks) == 1 and isinstance(it, (Declare, Evaluate)) else None
            if flag is not None:
                behind = parts[at + 1]
                is_only = at + 2 == len(parts) and isinstance(behind, If) and behind.other is None and is_flag(behind.test, flag)
                if not skips(behind, flag) and not is_only:
                    return None
                self.program.note(it.at, f"`{looks[0].method}` with a flag", "the operation that waits")
                look = rewritten(it, lambda node: waiting(looks[0]) if node is looks[0] else None)
                rest = list(behind.then.parts) if is_only and isinstance(behind, If) else parts[at + 2:]
                is_used = any(counted(each, flag) for each in rest)
                front = parts[:at] if is_used else [each for each in parts[:at] if not (isinstance(each, Declare) and all(local.variable is flag for local in each.locals))]
                return replaced(body, parts=tuple([*front, look, *([assign(name(flag), number(1, BOOL))] if is_used else []), *rest]))
            if not is_idle(it):
                return None
        return None

    def guarded(self, body: Block) -> Optional[Block]:
        """`if (!q.empty()) {..}` or `if (q.try_read(x)) {..}` as the one statement of a loop."""
        parts = list(body.parts)
        at = next((number_ for number_, it in enumerate(parts) if not is_idle(it)), None)
        it = parts[at] if at is not None else None
        if at is None or not isinstance(it, If) or it.other is not None and it.other.parts or any(not isinstance(each, Empty) for each in parts[at + 1:]):
            return None
        asked = [each for each in terms(it.test) if guard(each) is not None]
        rest = [each for each in terms(it.test) if guard(each) is None]
        if not asked or any(not is_pure(each) for each in rest):
            return None
        self.program.note(it.at, f"`{(guard(asked[0]) or asked[0]).__dict__['method']}` before all that a loop does", "the operation that waits")
        front: List[Statement] = []
        full: List[str] = []
        some: List[str] = []
        for each in asked:
            one = guard(each)
            assert one is not None
            if one.method in WAITING:
                front.append(Evaluate(waiting(one)))
            else:
                (full if one.method == "full" else some).append(stream_name(one.stream))
        inner = [*front, *(self.written(each, full, some) for each in it.then.parts)]
        made: List[Statement] = inner if not rest else [If(both(rest), block(inner, it.then))]
        return replaced(body, parts=tuple([*parts[:at], *made]))

    def written(self, it: Statement, full: List[str], some: List[str]) -> Statement:
        """`try_write` to a stream that has room is `write`, and `read(nullptr)` of one that has a token is `read()`."""
        def change(node: Node) -> Optional[Node]:
            if isinstance(node, Operation) and node.method == "try_write" and stream_name(node.stream) in full:
                return replaced(node, method="write")
            if isinstance(node, Operation) and node.method == "read" and node.arguments and isinstance(node.arguments[0], Null) and stream_name(node.stream) in some:
                return replaced(node, arguments=())
            return None
        made: Statement = rewritten(it, change)
        return made


def is_pure_or_look(test: Optional[Expression]) -> bool:
    """A test that may be made once more without a difference: it reads, takes and changes nothing."""
    return test is None or is_pure(test) or not has(test, Assign) and all(each.method in ("eot", "peek", "empty", "full") for each in found(test, Operation))


def stream_name(it: Expression) -> str:
    """A stream's name, with its element."""
    from ..write.expressions import plain
    return plain(it)


def refused(program: Program) -> None:
    """Marks each statement with a poll that is left."""
    def own(it: Statement) -> List[Operation]:
        out: List[Operation] = []
        stack: List[Node] = [each for each in children(it) if not isinstance(each, Block)]
        while stack:
            node = stack.pop()
            if isinstance(node, Operation) and not is_channel(node.stream) and (node.method in POLLS or flag_of(node) is not None):
                out.append(node)
            stack += [each for each in children(node) if not isinstance(each, Block)]
        return out

    def change(it: Statement) -> Optional[Sequence[Statement]]:
        left = own(it) if not isinstance(it, Block) else []
        if not left:
            return None
        one = left[-1]
        why = f"`{one.method}` of `{stream_name(one.stream)}`: what this carries depends on when it is looked at"
        return [marked(program, it, Refused(one.at, why, INSTEAD.get(one.method, "the operation that waits")))]
    for function in [*program.helpers, *program.tasks]:
        if function.body is not None and polls(function.body):
            function.body = statements(function.body, change)


def run(program: Program) -> None:
    polling = Polls(program)
    for function in [*program.helpers, *program.tasks]:
        if function.body is not None and polls(function.body):
            function.body = statements(function.body, polling.change)
    refused(program)
