"""What the parts of the reader share: texts, variables and functions that have been met."""
import re
from typing import Any, Dict, List, Optional, Tuple

from ..faults import Refused
from ..source.clang import NAME, Parsed, kids, library, span, value
from ..source.lexing import Words
from ..source.mapped import Mapped
from ..tree.kinds import Array, Kind, Whole
from ..tree.nodes import Expression, Node, Unknown
from ..tree.program import Function, Variable
from ..tree.walking import children
from .kinds import Kinds, is_const, is_reference


class Context:
    """The text that is read, and what of it is known by now."""

    def __init__(self, source: Mapped, parsed: Parsed) -> None:
        self.source, self.parsed, self.kinds = source, parsed, Kinds()
        self.sort = library().CursorKind
        self.texts: Dict[str, Words] = {NAME: Words(source.text)}
        self.variables: Dict[object, Variable] = {}
        self.functions: Dict[object, Function] = {}
        self.bindings: Dict[object, Expression] = {}
        self.pending: List[Tuple[Function, Any]] = []
        self.constants: List[Variable] = []

    def expression(self, cursor: Any) -> Expression:
        raise NotImplementedError

    def key(self, cursor: Any) -> Tuple[int, int, str]:
        """By what a declaration is known; instances of templates have keys of their own."""
        return int(cursor.hash), int(cursor.location.offset), str(cursor.spelling)

    def words(self, cursor: Any) -> Words:
        """The words of the file in which a cursor is."""
        file = cursor.extent.start.file
        name = file.name if file is not None else NAME
        if name not in self.texts:
            with open(name, encoding="latin-1") as header:
                self.texts[name] = Words(header.read())
        return self.texts[name]

    def is_own(self, cursor: Any) -> bool:
        file = cursor.extent.start.file
        return file is None or file.name == NAME

    def text(self, cursor: Any) -> str:
        begin, end = span(cursor)
        return self.words(cursor).text[begin:end]

    def at(self, cursor: Any) -> int:
        """The offset of a cursor in the text, -1 for one of a header."""
        return int(cursor.extent.start.offset) if self.is_own(cursor) else -1

    def between(self, left: Any, right: Any) -> str:
        """The words between two cursors, as an operator."""
        return "".join(it.text for it in self.words(left).between(span(left)[1], span(right)[0]))

    def kind(self, cursor: Any) -> Kind:
        return self.kinds.of(cursor.type)

    def refused(self, cursor: Any, why: str, instead: str = "") -> Unknown:
        """An expression that cannot be ported."""
        made = Unknown(self.kind(cursor), why, instead)
        made.at = self.at(cursor)
        return made

    def first(self, declaration: Any) -> Optional[Any]:
        """The cursor of a variable's initial value."""
        name = declaration.location.offset
        found = [it for it in kids(declaration) if it.kind.is_expression() and span(it)[0] >= name]
        if not found:
            return None
        it = found[-1]
        if isinstance(self.kind(declaration), Array) and it.kind != self.sort.INIT_LIST_EXPR and not isinstance(self.kind(it), Array):
            return None
        return it

    def is_of_file(self, declaration: Any) -> bool:
        """Whether a variable is none of a function."""
        parent = declaration.semantic_parent
        return parent is not None and parent.kind in (self.sort.TRANSLATION_UNIT, self.sort.NAMESPACE, self.sort.LINKAGE_SPEC, self.sort.UNEXPOSED_DECL)

    def variable(self, declaration: Any) -> Variable:
        """The variable of a declaration."""
        key = self.key(declaration)
        if key in self.variables:
            return self.variables[key]
        kind = self.kind(declaration)
        it = Variable(declaration.spelling, kind, "local", is_const(declaration.type), is_reference(declaration.type), self.at(declaration))
        it.spot = int(declaration.location.offset) if self.parsed.is_own(declaration) else -1
        self.variables[key] = it
        if declaration.kind == self.sort.PARM_DECL:
            it.role = "parameter"
        elif self.is_of_file(declaration):
            self.of_file(it, declaration)
        return it

    def of_file(self, it: Variable, declaration: Any) -> None:
        """A variable of the file is a constant, or an array of constants."""
        it.role = "constant"
        first = self.first(declaration)
        if not it.is_const:
            raise Refused(it.at, f"`{it.name}` is a variable of the file", "a constant of the file, or a local of a task; what several tasks share goes through streams")
        if isinstance(it.kind, Whole):
            it.value = value(first) if first is not None else 0
            if it.value is not None:
                it.value = it.kind.wrapped(it.value)
        if it.value is None and first is not None:
            it.first = self.expression(first)
            it.role = "table"
        self.constants.append(it)

    def keep(self, node: Node, cursor: Any, text: Optional[str] = None) -> None:
        """Keeps the text of a node whose parts all have theirs."""
        if self.is_own(cursor) and all(it.text is not None for it in children(node)):
            node.text = re.sub(r"[ \t]+\n", "\n", self.text(cursor) if text is None else text)
