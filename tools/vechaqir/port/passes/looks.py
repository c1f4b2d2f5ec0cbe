"""`read(nullptr)` is `read()` where a look that found a token is before it on each path: the loop around it, or a test. Elsewhere the original may take a value that no token has."""
from typing import Dict, List, Optional, Sequence, Set

from ..faults import Refused

from ..tree.nodes import Assign, Binary, Expression, Name, Node, Null, Operation, Unary
from ..tree.program import Program, Variable
from ..tree.statements import Block, Break, Continue, Declare, Do, Evaluate, For, If, LOOPS, Return, Statement, Switch
from ..tree.walking import children, found, from_above, rewritten, statements, walk
from .marking import marked
from .polls import is_channel, stream_name


def is_blind(it: Node) -> bool:
    """`read(nullptr)`."""
    return isinstance(it, Operation) and it.method == "read" and len(it.arguments) == 1 and isinstance(it.arguments[0], Null) and not is_channel(it.stream)


def has_token(test: Optional[Expression], is_so: bool) -> Set[str]:
    """The streams of which a test says that they have a token, where it holds or where it does not."""
    if isinstance(test, Unary) and test.sign == "!":
        return has_token(test.operand, not is_so)
    if isinstance(test, Binary) and test.sign == ("&&" if is_so else "||"):
        return has_token(test.left, is_so) | has_token(test.right, is_so)
    if isinstance(test, Operation) and test.method in ("eot", "empty") and not is_so:
        return {stream_name(test.stream)}
    return set()


class Looks:
    """One function: which streams are known to have a token at each place."""

    def __init__(self, program: Program) -> None:
        self.program = program
        self.left: List[Operation] = []
        # variables that say whether a stream is at the end of a transaction
        self.ends: Dict[Variable, str] = {}

    def expression(self, it: Optional[Node], known: Set[str]) -> Set[str]:
        """What is known after an expression; each `read` takes the token."""
        if it is None:
            return known
        for each in walk_in_order(it):
            if not isinstance(each, Operation) or is_channel(each.stream):
                continue
            stream = stream_name(each.stream)
            if is_blind(each) and stream not in known:
                self.left.append(each)
            if each.method in ("read", ">>", "open"):
                known = known - {stream}
                self.ends = {variable: other for variable, other in self.ends.items() if other != stream}
            elif each.method == "peek":
                known = known | {stream}
        return known

    def statements(self, parts: Sequence[Statement], known: Set[str]) -> Set[str]:
        for it in parts:
            known = self.statement(it, known)
        return known

    def statement(self, it: Statement, known: Set[str]) -> Set[str]:
        if isinstance(it, Block):
            return self.statements(it.parts, known)
        if isinstance(it, If):
            after = self.expression(it.test, known)
            sides = [after | self.has_token(it.test, each) for each in (True, False)]
            then = self.statements(it.then.parts, sides[0])
            other = self.statements(it.other.parts, sides[1]) if it.other is not None else sides[1]
            ends = [leaves(it.then.parts), it.other is not None and leaves(it.other.parts)]
            return other if ends[0] else then if ends[1] else then & other
        if isinstance(it, LOOPS):
            return self.loop(it, known)
        if isinstance(it, Switch):
            known = self.expression(it.test, known)
            for group in it.groups:
                known = known & self.statements(group.parts, known)
            return known
        if isinstance(it, (Declare, Evaluate, Return)):
            known = self.expression(it, known)
            self.remember(it)
        return known

    def remember(self, it: Statement) -> None:
        """`end = q.eot(nullptr)`."""
        pairs = [(each.variable, each.first) for each in it.locals] if isinstance(it, Declare) else []
        inner = it.expression if isinstance(it, Evaluate) else None
        if isinstance(inner, Assign) and isinstance(inner.target, Name):
            pairs = [(inner.target.variable, inner.value)]
        for variable, value in pairs:
            self.ends.pop(variable, None)
            if isinstance(value, Operation) and value.method == "eot":
                self.ends[variable] = stream_name(value.stream)

    def has_token(self, test: Optional[Expression], is_so: bool) -> Set[str]:
        """The same of a test with variables that say so."""
        if isinstance(test, Unary) and test.sign == "!":
            return self.has_token(test.operand, not is_so)
        if isinstance(test, Name) and not is_so and test.variable in self.ends:
            return {self.ends[test.variable]}
        return has_token(test, is_so)

    def loop(self, it: Statement, known: Set[str]) -> Set[str]:
        """A loop begins each iteration with what is known in all of them."""
        test = getattr(it, "test", None)
        if isinstance(it, For) and it.start is not None:
            known = self.statement(it.start, known)
        taken = {stream_name(each.stream) for each in found(it, Operation) if each.method in ("read", ">>", "open", "try_read") and not is_channel(each.stream)}
        before = known - taken
        after = self.expression(test, before) if not isinstance(it, Do) else before
        inside = self.statements(getattr(it, "body").parts, after | (has_token(test, True) if not isinstance(it, Do) else set()))
        if isinstance(it, For):
            self.expression(it.step, inside)
        return before


def leaves(parts: Sequence[Statement]) -> bool:
    return bool(parts) and isinstance(parts[-1], (Break, Continue, Return))


def walk_in_order(it: Node) -> List[Node]:
    """The nodes of an expression, operands first."""
    out: List[Node] = []
    for each in children(it):
        out += walk_in_order(each)
    return [*out, it]


def waits(it: Node) -> Optional[Node]:
    if is_blind(it) and isinstance(it, Operation):
        made = Operation(it.kind, "read", from_above(it.stream, waits))
        made.at = it.at
        return made
    return None


def run(program: Program) -> None:
    for function in [*program.helpers, *program.tasks]:
        body = function.body
        if body is None or not any(is_blind(it) for it in walk(body)):
            continue
        looks = Looks(program)
        looks.statements(body.parts, set())
        left = {id(it) for it in looks.left}

        def change(it: Statement) -> Optional[Sequence[Statement]]:
            inner = [each for each in children(it) if not isinstance(each, Block)]
            bad = next((each for part in inner for each in walk_outside(part) if id(each) in left), None)
            if bad is None or not isinstance(bad, Operation):
                return None
            return [marked(program, it, Refused(bad.at, f"`read(nullptr)` of `{stream_name(bad.stream)}`, which may find no token and then takes a value that none has", "`read()`, or `eot(nullptr)` before it"))]
        made: Block = statements(body, change) if left else body
        for each in walk(made):
            if is_blind(each):
                program.note(each.at, "`read(nullptr)`", "`read()`")
        function.body = rewritten(made, waits)


def walk_outside(it: Node) -> List[Node]:
    """The nodes of a part of a statement without those of blocks."""
    return [it, *(each for part in children(it) if not isinstance(part, Block) for each in walk_outside(part))]
