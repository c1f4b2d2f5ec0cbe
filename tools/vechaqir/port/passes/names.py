"""Names of what passes have made: each is one that nothing else has at its place."""
import re
from typing import Dict, Sequence, Set

from ..tree.making import name
from ..tree.nodes import Assign, Name, Node, Step
from ..tree.program import Program, Variable
from ..tree.statements import Block, Chain, Declare, For, Marked
from ..tree.walking import children, has, root, substituted, walk

RESERVED = set("""const constexpr void tapa std if else while for TAPA_WHILE_NOT_EOT break continue nullptr true false static_cast bool int short long unsigned size_t int8_t uint8_t int16_t uint16_t int32_t
uint32_t int64_t uint64_t char signed float double struct class union enum return switch case default do goto auto using typedef template static extern inline namespace new delete this sizeof""".split())


def fit(word: str) -> str:
    """A word as a name of the language."""
    made = re.sub(r"\W+", "_", word).strip("_") or "value"
    return f"{made}_value" if made in RESERVED or made[0].isdigit() else made


class Namer:
    """The names of one task; `outside` are those of the file that it needs, `marked` those in what is left to change by hand."""

    def __init__(self, outside: Set[str], marked: Set[str]) -> None:
        self.outside, self.marked = outside, marked
        self.new: Dict[Variable, Variable] = {}
        self.inner: Dict[int, Set[Variable]] = {}

    def uses(self, it: Node) -> Set[Variable]:
        """The variables that are named within a node."""
        if id(it) not in self.inner:
            out = {it.variable} if isinstance(it, Name) else set()
            for each in children(it):
                out |= self.uses(each)
            self.inner[id(it)] = out
        return self.inner[id(it)]

    def called(self, it: Variable) -> str:
        return self.new[it].name if it in self.new else it.name

    def declare(self, variables: Sequence[Variable], within: Sequence[Node]) -> None:
        """Names what is declared in one block: by no name that something else has in it, or that is needed within from outside."""
        used: Set[Variable] = set()
        for each in within:
            used |= self.uses(each)
        others = {self.called(it) for it in used if it not in variables} | self.outside
        mine: Dict[str, Variable] = {}
        for it in variables:
            if it in mine.values():
                continue
            word = fit(it.name)
            made, number = word, 0
            while made in mine or made in others or it.at < 0 and made in self.marked:
                number += 1
                made = f"{word}_{number}"
            mine[made] = it
            if made != it.name:
                self.new[it] = Variable(made, it.kind, it.role, it.is_const, it.is_reference, it.at, origin=it.origin)

    def block(self, parts: Sequence[Node], parameters: Sequence[Variable] = ()) -> None:
        declared = [local.variable for each in parts if isinstance(each, Declare) for local in each.locals]
        self.declare([*parameters, *declared], parts)
        for each in parts:
            self.statement(each)

    def statement(self, it: Node) -> None:
        """The blocks within a statement; the head of a `for` is a block around its body."""
        if isinstance(it, For) and isinstance(it.start, Declare):
            self.declare([local.variable for local in it.start.locals], [it])
        inner: Sequence[Node] = [it] if isinstance(it, Block) else children(it)
        for each in inner:
            if isinstance(each, Block):
                self.block(each.parts)


def tasks(program: Program) -> Set[str]:
    """Names of tasks: one for each, and none of a constant."""
    taken: Set[str] = set()
    constants = {it.name for it in program.constants}
    for it in program.tasks:
        word, number = fit(it.name), 0
        made = word
        while made in taken or made in constants:
            number += 1
            made = f"{word}_{number}"
        taken.add(made)
        if made != it.name:
            it.name, it.text = made, None
    return taken


def run(program: Program) -> None:
    all_ = tasks(program)
    for function in program.tasks:
        body = function.body
        if body is None:
            continue
        for it in walk(body):
            variable = root(it.target) if isinstance(it, (Assign, Step)) else None
            if variable is not None and variable.is_const:   # its value has become a statement of its own
                variable.is_const = False
        constants = {it.variable.name for it in walk(body) if isinstance(it, Name) and it.variable.role in ("constant", "table")}
        namer = Namer(constants | (all_ if has(body, Chain) else set()), words_of_marks(body))
        namer.block(body.parts, function.parameters)
        if namer.new:
            function.body = substituted(body, {old: name(new) for old, new in namer.new.items()}, namer.new)
            function.text = None if any(it in namer.new for it in function.parameters) else function.text
            function.parameters = [namer.new.get(it, it) for it in function.parameters]
            program.renamed.update(namer.new)


def words_of_marks(body: Block) -> Set[str]:
    """The names within what is left to change by hand."""
    return {word for it in walk(body) if isinstance(it, Marked) for line in it.lines for word in re.findall(r"[A-Za-z_]\w*", line)}
