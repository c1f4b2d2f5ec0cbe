"""The program of a top task: what of a source it needs."""
import re
from typing import Any, Dict, List, Optional, Set

from ..faults import Refused, Unusable
from ..source.clang import Parsed, kids, span
from ..source.mapped import Mapped
from ..tree.kinds import Carrier, Plain, Whole
from ..tree.program import Argument, Function, Item, Program, Variable
from ..tree.statements import Chain
from ..tree.walking import found
from .kinds import bare
from .statements import Statements

BEFORE = ("NAMESPACE", "LINKAGE_SPEC")


class Reader(Statements):
    """Reads the top task, and what is invoked, called and named from there."""

    def __init__(self, source: Mapped, parsed: Parsed) -> None:
        super().__init__(source, parsed)
        self.all: List[Function] = []
        self.top_arguments: List[Argument] = []

    def items(self, cursors: List[Any]) -> List[Item]:
        """The declarations of the file; those in namespaces too, whose braces go."""
        out: List[Item] = []
        for it in cursors:
            begin, end = span(it)
            inner = [each for each in kids(it) if self.parsed.is_own(each)]
            if it.kind.name in BEFORE or it.kind.name == "UNEXPOSED_DECL" and "{" in self.words(it).text[begin:end].split(";")[0]:
                opening = self.words(it).text.find("{", begin, end)
                if opening >= 0:
                    out += [Item(begin, opening + 1, is_brace=True), *self.items(inner), Item(end - 1, end, is_brace=True)]
                    continue
                out += [Item(begin, span(inner[0])[0] if inner else end, is_brace=True), *self.items(inner)]
                continue
            out.append(Item(begin, self.ended(it, end), variable=self.constant(it)))
        return out

    def constant(self, cursor: Any) -> Optional[Variable]:
        """A constant of the file, also one that no task needs."""
        if cursor.kind != self.sort.VAR_DECL or self.key(cursor) in self.variables:
            return None
        kept = list(self.constants)
        try:
            it = self.variable(cursor)
        except Refused:
            it = Variable("", Plain("unknown"))
        self.constants = kept
        self.variables.pop(self.key(cursor), None)
        return it if it.role == "constant" and isinstance(it.kind, Whole) and it.value is not None else None

    def ended(self, cursor: Any, end: int) -> int:
        """The offset after a declaration, with its `;`."""
        words = self.words(cursor)
        at = words.after(end)
        return words.all[at].end if at < len(words.all) and words.all[at].text == ";" else end

    def find(self, top: str) -> Function:
        """The top task."""
        for it in self.functions_of(self.parsed.items()):
            if it.spelling == top and it.is_definition():
                made = self.function(it)
                if made is not None:
                    self.top_arguments = [self.argument(each) for each in kids(it) if each.kind == self.sort.PARM_DECL]
                    return made
        raise Unusable(f"there is no function `{top}` with a body")

    def argument(self, cursor: Any) -> Argument:
        """A parameter of the top task as C++ writes it."""
        it = self.variable(cursor)
        kind = bare(cursor.type)
        is_carrier = isinstance(it.kind, Carrier)
        element = kind.get_template_argument_type(0).get_canonical().spelling if is_carrier else ""
        return Argument(it, it.kind.sort if isinstance(it.kind, Carrier) else "", re.sub(r"\bconst ", "", element), kind.spelling, it.kind.length if isinstance(it.kind, Carrier) else 0)

    def functions_of(self, cursors: List[Any]) -> List[Any]:
        out: List[Any] = []
        for it in cursors:
            if it.kind == self.sort.FUNCTION_DECL:
                out.append(it)
            elif it.kind.name in (*BEFORE, "UNEXPOSED_DECL"):
                out += self.functions_of([each for each in kids(it) if self.parsed.is_own(each)])
        return out

    def bodies(self) -> None:
        """Reads the bodies of all functions that have been met."""
        while self.pending:
            function, body = self.pending.pop()
            function.body = self.block(body)
            self.all.append(function)

    def tasks(self, top: Function) -> List[Function]:
        """The top task and all that is invoked below it, each before those that invoke it."""
        out: List[Function] = []
        within: List[Function] = []

        def add(it: Function) -> None:
            if it in within:
                raise Refused(it.at, f"`{it.name}` invokes itself", "a loop")
            if it in out:
                return
            within.append(it)
            for chain in found(it.body, Chain):
                for each in chain.invokes:
                    add(each.function)
            within.pop()
            out.append(it)
        add(top)
        return out


def instances(tasks: List[Function]) -> None:
    """Gives instances of one template names of their own."""
    places: Dict[object, List[Function]] = {}
    for it in tasks:
        places.setdefault(it.key, []).append(it)
    for each in places.values():
        for it in each:
            it.is_instance = it.is_instance or len(each) > 1


def read(source: Mapped, top: str) -> Program:
    """The program of a top task in a source."""
    parsed = Parsed(source.text)
    reader = Reader(source, parsed)
    program = Program(source, Function(top, reader.kinds.of(parsed.unit.cursor.type)))
    faults = parsed.faults()
    try:
        program.top = reader.find(top)
        reader.bodies()
    except (Refused, Unusable):
        if faults:
            raise Refused(faults[0][0], f"Clang: {faults[0][1]}") from None
        raise
    reached = [it for it in reader.functions.values() if it.is_own]
    inside = [(at, why) for at, why in faults if any(it.at <= at < it.end for it in reached) or not is_in_function(reader, at)]
    if inside:
        raise Refused(inside[0][0], f"Clang: {inside[0][1]}")
    program.tasks = reader.tasks(program.top)
    program.helpers = [it for it in reader.all if it not in program.tasks]
    program.constants = reader.constants
    instances(program.tasks)
    program.items = placed(reader, program)
    program.streams = [it for it in reader.variables.values() if it.role == "stream"]
    program.records = list(reader.kinds.records.values())
    program.arguments = reader.top_arguments
    program.left_out = [span(it) for it in reader.functions_of(reader.parsed.items()) if any(span(it)[0] <= at < span(it)[1] for at, _ in faults) or it.spelling == "main"]
    return program


def is_in_function(reader: Reader, at: int) -> bool:
    """Whether an offset is within the body of a function, which may be left out where nothing calls it."""
    return any(span(it)[0] <= at < span(it)[1] for it in reader.functions_of(reader.parsed.items()))


def placed(reader: Reader, program: Program) -> List[Item]:
    """The items with the constants and tasks that each becomes."""
    items = reader.items(reader.parsed.items())
    seen: Set[int] = set()
    for it in items:
        if it.is_brace:
            continue
        it.functions = [each for each in program.tasks if it.begin <= each.at < it.end]
        it.constants = [each for each in program.constants if each.role == "constant" and it.begin <= each.at < it.end]
        it.constants += [it.variable] if it.variable is not None and not it.constants else []
        seen |= {id(each) for each in it.functions}
    for each in program.tasks:
        if id(each) not in seen:
            raise Refused(each.at, f"the task `{each.name}` is no function of the file")
    return items
