"""Declarations of variables, and the invokes of an upper-level task."""
import re
from typing import Any, List, Optional, Tuple

from ..source.clang import kids, span, value
from ..tree.kinds import BOOL, LAMBDA, TASK, Carrier, Plain, Record, Whole
from ..tree.nodes import Expression, Field, Lambda, Name, Number, Text, Unary, Unknown
from ..tree.program import Function, Variable
from ..tree.statements import Chain, Declare, Empty, Evaluate, Invoke, Local, Statement
from .kinds import is_word
from .operators import Operators


class Invokes(Operators):
    """Reads declarations and chains of invokes."""

    def end(self, cursor: Any) -> int:
        raise NotImplementedError

    def keep_statement(self, node: Any, cursor: Any) -> None:
        raise NotImplementedError

    def true(self) -> Number:
        return Number(BOOL, 1)

    def negated(self, it: Expression) -> Expression:
        return Unary(BOOL, "!", it)

    def local(self, cursor: Any) -> Local:
        """One variable with its initial value."""
        it = self.variable(cursor)
        first = self.first(cursor)
        made = Local(it, self.expression(first) if first is not None else None)
        made.at = self.at(cursor)
        if isinstance(made.first, Lambda):
            it.kind, it.first = LAMBDA, made.first
            made.first.function.name = it.name
        if isinstance(it.kind, Carrier):
            it.role = "stream"
        self.keep_local(made, cursor)
        return made

    def keep_local(self, made: Local, cursor: Any) -> None:
        """Keeps the text of `x`, `x = e` and `x[N]`."""
        it = made.variable
        begin = cursor.location.offset
        text = self.words(cursor).text[begin:span(cursor)[1]] if self.is_own(cursor) else ""
        rest = text[len(it.name):]
        if it.is_reference or isinstance(it.kind, (Plain, Record)) or not text.startswith(it.name):
            return
        if isinstance(it.kind, Carrier) and it.kind.sort in ("stream", "streams") and re.fullmatch(r'\s*(?:\(\s*"[^"\\]*"\s*\))?\s*', rest):
            made.text = text
        elif not rest.strip() and isinstance(it.kind, Whole) or re.fullmatch(r"\s*\[\s*(?:\d+|[A-Za-z_]\w*)\s*\]\s*", rest) and isinstance(getattr(it.kind, "element", None), Whole):
            made.text = text if made.first is None else None
        elif re.match(r"\s*=[^=]", rest) and isinstance(it.kind, Whole) and made.first is not None and made.first.text is not None:
            made.text = text

    def declaration(self, cursor: Any) -> List[Statement]:
        """A declaration of variables; other declarations leave nothing."""
        locals_: List[Local] = []
        out: List[Statement] = []
        for it in kids(cursor):
            if it.kind == self.sort.VAR_DECL:
                locals_.append(self.local(it))
                out += self.lasting(it)
            elif it.kind == self.sort.UNEXPOSED_DECL and it.spelling.startswith("["):
                out += self.bound(it)
        if not locals_:
            return out or [Empty()]
        made = Declare(tuple(locals_))
        begin = span(cursor)[0]
        word = self.words(cursor).text[begin:kids(cursor)[0].location.offset]
        if self.is_kept(word, locals_) and all(self.is_sized(it) for it in kids(cursor)):
            self.keep_statement(made, cursor)
        return [*out, made]

    def is_kept(self, word: str, locals_: List[Local]) -> bool:
        """Whether what is before the names of a declaration is of the language."""
        kind = locals_[0].variable.kind
        if isinstance(kind, Carrier):
            return bool(re.fullmatch(r"tapa\s*::\s*(?:stream|streams)\s*<\s*(?P<kind>[^<>,]+?)(?:\s*,\s*\w+)*\s*>\s*", word)) and is_word(re.split(r"[<,>]", word)[1])
        return is_word(word)

    def is_sized(self, cursor: Any) -> bool:
        """Whether the numbers in the type of a variable are literals, or constants of the file that are one."""
        first = self.first(cursor) if cursor.kind == self.sort.VAR_DECL else None
        for it in kids(cursor):
            if not it.kind.is_expression() or first is not None and it == first:
                continue
            while it.kind in (self.sort.UNEXPOSED_EXPR, self.sort.PAREN_EXPR) and len(kids(it)) == 1:
                it = kids(it)[0]
            if it.kind == self.sort.INTEGER_LITERAL:
                continue
            to = it.referenced if it.kind == self.sort.DECL_REF_EXPR else None
            if to is None or to.kind != self.sort.VAR_DECL or not self.is_of_file(to) or not self.is_literal(self.first(to)):
                return False
        return True

    def is_literal(self, cursor: Optional[Any]) -> bool:
        while cursor is not None and cursor.kind == self.sort.UNEXPOSED_EXPR and len(kids(cursor)) == 1:
            cursor = kids(cursor)[0]
        return cursor is not None and cursor.kind == self.sort.INTEGER_LITERAL and self.text(cursor).isdecimal()

    def lasting(self, cursor: Any) -> List[Statement]:
        """A mark for a variable that keeps its value from one call to the next."""
        if cursor.storage_class.name != "STATIC" or self.variable(cursor).is_const:
            return []
        bad = Unknown(Plain("void"), f"`{cursor.spelling}` lasts from one call to the next", "a variable of the task, declared before its loop")
        bad.at = self.at(cursor)
        return [Evaluate(bad)]

    def bound(self, cursor: Any) -> List[Statement]:
        """`auto [a, b] = e;`: a copy of the whole, or a reference to it, whose fields are what the names stand for."""
        parts = kids(cursor)
        names = [it for it in parts if it.kind == self.sort.UNEXPOSED_DECL]
        first = next((it for it in parts if it.kind.is_expression()), None)
        kind = self.kind(cursor)
        if first is None or not isinstance(kind, Record) or len(names) != len(kind.members):
            bad = Unknown(Plain("void"), "names in brackets for what is no struct", "one declaration for each")
            bad.at = self.at(cursor)
            return [Evaluate(bad)]
        it = Variable("_".join(name.spelling for name in names), kind, is_reference="&" in self.text(cursor).split("[")[0], at=self.at(cursor))
        for name, member in zip(names, kind.members):
            self.bindings[self.key(name)] = Field(member.kind, Name(kind, it), member.name)
        return [Declare((Local(it, self.expression(first)),))]

    def is_chain(self, cursor: Any) -> bool:
        """Whether an expression invokes tasks."""
        return self.last_invoke(cursor) is not None

    def last_invoke(self, cursor: Any) -> Optional[Any]:
        while cursor.kind in (self.sort.UNEXPOSED_EXPR, self.sort.PAREN_EXPR) and len(kids(cursor)) == 1:
            cursor = kids(cursor)[0]
        is_one = cursor.kind == self.sort.CALL_EXPR and cursor.spelling == "invoke" and self.kinds.of(cursor.type) == TASK
        return cursor if is_one else None

    def invokes(self, cursor: Any) -> List[Any]:
        """The invokes of a chain, the first one first."""
        it = self.last_invoke(cursor)
        if it is None:
            return []
        inner = [each for each in kids(kids(it)[0]) if each.kind.is_expression()]
        return [*(self.invokes(inner[0]) if inner else []), it]

    def chain(self, cursor: Any) -> Statement:
        made = Chain(tuple(self.invoke(it) for it in self.invokes(cursor)))
        text = self.words(cursor).text[span(cursor)[0]:self.end(cursor)]
        made.at = self.at(cursor)
        if all(it.text is not None for it in made.invokes) and re.match(r"tapa\s*::\s*task\s*\(\s*\)\s*\.", text) and "/*" not in text:
            made.text = text
        return made

    def mode(self, cursor: Any) -> Tuple[bool, int]:
        """Whether an invoke detaches, and its count; libclang gives the arguments of a template of methods as expressions below its name."""
        given = [value(it) for it in kids(kids(cursor)[0])[1:] if it.kind.is_expression()]
        numbers = [it for it in given if it is not None]
        return bool(numbers and numbers[0] == -1), numbers[1] if len(numbers) > 1 else 1

    def invoke(self, cursor: Any) -> Invoke:
        given = [it for it in kids(cursor)[1:] if it.kind.is_expression()]
        is_detached, count = self.mode(cursor)
        function = self.task(given[0])
        arguments = [self.expression(it) for it in given[1:]]
        has_name = bool(arguments) and isinstance(arguments[0], Text)
        made = Invoke(function, is_detached, count, tuple(arguments[has_name:]))
        made.at = self.at(given[0])
        begin = span(kids(kids(cursor)[0])[0])[1] if kids(kids(cursor)[0]) else span(cursor)[0]
        text = self.words(cursor).text[begin:span(cursor)[1]]
        form = re.match(r"\s*\.\s*invoke\s*(?:<\s*tapa\s*::\s*(?:join|detach)\s*(?:,\s*\w+\s*)?>\s*)?\(\s*" + re.escape(function.name) + r"\s*[,)]", text)
        is_plain = all(isinstance(it, (Name, Number)) and it.text is not None or self.is_element(it) for it in made.arguments)
        if form and not has_name and not function.is_instance and is_plain:
            made.text = text
        return made

    def is_element(self, it: Expression) -> bool:
        from ..tree.nodes import Index
        return isinstance(it, Index) and isinstance(it.base, Name) and isinstance(it.index, (Number, Name)) and it.index.text is not None

    def task(self, cursor: Any) -> Function:
        """The task that an invoke names."""
        while cursor.kind in (self.sort.UNEXPOSED_EXPR, self.sort.PAREN_EXPR, self.sort.UNARY_OPERATOR) and len(kids(cursor)) == 1:
            cursor = kids(cursor)[0]
        to = cursor.referenced
        definition = (to.get_definition() or to) if to is not None else None
        made = self.function(definition) if definition is not None and definition.kind == self.sort.FUNCTION_DECL else None
        if made is None:
            from ..faults import Refused
            raise Refused(self.at(cursor), f"`{cursor.spelling or self.text(cursor)[:40]}` is invoked, but has no body here", "a task that the source has")
        return made
