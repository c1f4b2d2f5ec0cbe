"""Literals, names and conversions: the leaves of expressions."""
import re
from typing import Any, Optional

from ..source.clang import kids, value
from ..tree.kinds import FUNCTION, Carrier, Floating, Kind, Narrow, Plain, Record, Whole
from ..tree.nodes import Bits, Cast, Expression, Field, Name, Null, Number, Text, This
from .context import Context
from .kinds import is_word

LITERAL = re.compile(r"(?:0[xX][0-9a-fA-F]+|0[bB][01]+|0[0-7]*|[1-9][0-9]*)(?:[uU](?:l|L|ll|LL)?|(?:l|L|ll|LL)[uU]?)?|true|false")
ONE = re.compile(r"((?:std::)?u?int(?:8|16|32|64)_t|bool|int|short|long|unsigned|size_t)\s*\(")
STATIC = re.compile(r"static_cast\s*<([^<>]*)>\s*\(")
WRITTEN = re.compile(r"\(([^()]*)\)")


class Literals(Context):
    """Reads what has no operands of its own, and what converts one."""

    def number(self, cursor: Any, found: Optional[int] = None) -> Expression:
        """A constant by its value; its text stays where it is a literal of the language."""
        kind = self.kind(cursor)
        known = value(cursor) if found is None else found
        if known is None or not isinstance(kind, (Whole, Narrow)):
            return self.refused(cursor, f"`{self.text(cursor)}` has no value that is known")
        made = Number(kind if isinstance(kind, Whole) else kind.whole(), kind.whole().wrapped(known) if isinstance(kind, Narrow) else kind.wrapped(known))
        if LITERAL.fullmatch(self.text(cursor)):
            self.keep(made, cursor)
        return made

    def floating(self, cursor: Any) -> Expression:
        text = self.text(cursor).replace("'", "").rstrip("fFlL")
        try:
            return Number(self.kind(cursor), float.fromhex(text) if text[:2] in ("0x", "0X") else float(text))
        except ValueError:
            return self.refused(cursor, f"`{self.text(cursor)}` is no number that is known")

    def text_literal(self, cursor: Any) -> Expression:
        return Text(self.kind(cursor), cursor.spelling.strip('"'))

    def name(self, cursor: Any) -> Expression:
        """A name: of a variable, of an enumerator, of a parameter of a template, or of a function."""
        to = cursor.referenced
        if to is None or not cursor.spelling:
            return self.number(cursor)
        key = self.key(to)
        if key in self.bindings:
            return self.bindings[key]
        if to.kind == self.sort.ENUM_CONSTANT_DECL:
            return self.enumerator(cursor, to)
        if to.kind in (self.sort.FUNCTION_DECL, self.sort.CXX_METHOD):
            return Name(FUNCTION, self.variable(to))
        if to.kind not in (self.sort.VAR_DECL, self.sort.PARM_DECL):
            return self.refused(cursor, f"`{cursor.spelling}` is no variable")
        if to.kind == self.sort.VAR_DECL and not self.parsed.is_own(to) and self.is_of_file(to) or to.semantic_parent is not None and to.semantic_parent.kind in (self.sort.STRUCT_DECL, self.sort.CLASS_DECL, self.sort.CLASS_TEMPLATE):
            return self.static_member(cursor, to)
        it = self.variable(to)
        made = Name(it.kind, it)
        if self.text(cursor) == it.name and it.role in ("local", "parameter", "constant"):
            self.keep(made, cursor)
        return made

    def static_member(self, cursor: Any, to: Any) -> Expression:
        """A constant of a struct or of a header, by its value."""
        found = value(cursor)
        if found is None:
            return self.refused(cursor, f"`{cursor.spelling}` is a variable of a struct", "a field, or a constant")
        del to
        return self.number(cursor, found)

    def enumerator(self, cursor: Any, to: Any) -> Expression:
        """An enumerator is a constant of the file; one of a scoped enumeration has its name before its own."""
        from ..tree.program import Variable
        key, parent = self.key(to), to.semantic_parent
        kind = self.kinds.of(parent.type)
        if key not in self.variables:
            name = f"{parent.spelling}_{to.spelling}" if parent.is_scoped_enum() else to.spelling
            it = Variable(name, kind, "constant", True, at=self.at(to), value=kind.wrapped(to.enum_value) if isinstance(kind, Whole) else to.enum_value)
            self.variables[key] = it
            self.constants.append(it)
        it = self.variables[key]
        made = Name(it.kind, it)
        if self.text(cursor) == it.name:
            self.keep(made, cursor)
        return made

    def this(self, cursor: Any) -> Expression:
        return This(self.kind(cursor) if not isinstance(self.kind(cursor), Plain) else Plain("this"))

    def null(self, cursor: Any) -> Expression:
        made = Null(Plain("nullptr"))
        self.keep(made, cursor)
        return made

    def unexposed(self, cursor: Any) -> Expression:
        """What Clang adds: conversions between numbers of different sorts stay, the others go."""
        inner = kids(cursor)
        if len(inner) == 1:
            return self.converted(self.expression(inner[0]), self.kind(cursor), cursor)
        if not inner:
            return self.zero(cursor)
        found = value(cursor)
        return self.number(cursor, found) if found is not None else self.refused(cursor, f"`{self.text(cursor)[:40]}`: an expression of this sort")

    def zero(self, cursor: Any) -> Expression:
        """`T()`, and an argument that is left out, which the caller fills in."""
        kind = self.kind(cursor)
        if isinstance(kind, (Whole, Floating)):
            made = Number(kind, 0)
            made.at = -2 if not self.text(cursor) else self.at(cursor)
            return made
        from ..tree.nodes import Braces
        empty = Braces(kind, ())
        empty.at = -2 if not self.text(cursor) else self.at(cursor)
        return empty

    def converted(self, inner: Expression, kind: Kind, cursor: Any) -> Expression:
        """An implicit conversion."""
        if inner.kind == kind or isinstance(kind, (Plain, Carrier, Record)) or isinstance(inner.kind, (Plain, Carrier, Record)):
            return inner
        if isinstance(inner, Cast) and not inner.is_written and is_bit_field(inner.operand) and isinstance(kind, Whole):   # a bit field of an `unsigned` becomes an `int` where all its values are of one
            inner = inner.operand
        if isinstance(kind, Whole) and isinstance(inner.kind, Whole) or isinstance(kind, Floating) and isinstance(inner.kind, Floating):
            return inner
        if isinstance(kind, (Whole, Floating, Narrow)) and isinstance(inner.kind, (Whole, Floating, Narrow)):
            made = Cast(kind, inner)
            made.at = self.at(cursor)
            return made
        return inner

    def cast(self, cursor: Any) -> Expression:
        """A conversion that is written."""
        parts = [it for it in kids(cursor) if it.kind.is_expression()]
        kind = self.kind(cursor)
        if not parts:
            return self.zero(cursor)
        inner = self.expression(parts[-1])
        if isinstance(kind, (Record, Carrier)) or kind == Plain("void"):
            return inner
        if not isinstance(kind, (Whole, Floating, Narrow)) or not isinstance(inner.kind, (Whole, Floating, Narrow)):
            return self.refused(cursor, f"`{self.text(cursor)[:40]}`: a conversion of this sort", "one between kinds of numbers")
        made = Cast(kind, self.inside(inner, kind), True)
        text = self.text(cursor)
        form = WRITTEN.match(text) or ONE.match(text) or STATIC.match(text)
        if form and is_word(form[1]) and isinstance(kind, Whole) and isinstance(inner.kind, Whole):
            self.keep(made, cursor)
        return made

    def inside(self, inner: Expression, kind: Kind) -> Expression:
        """An operand without the conversion that Clang has put below a written one to the same kind."""
        return inner.operand if isinstance(inner, Cast) and inner.text is None and inner.kind == kind else inner

    def sized(self, cursor: Any) -> Expression:
        """`sizeof` and what else Clang computes."""
        return self.number(cursor)

    def bits_of(self, cursor: Any, inner: Expression) -> Expression:
        made = Bits(self.kind(cursor), inner)
        made.at = self.at(cursor)
        return made


def is_bit_field(it: Expression) -> bool:
    """Whether something is a bit field of a struct."""
    member = it.base.kind.member(it.name) if isinstance(it, Field) and isinstance(it.base.kind, Record) else None
    return member is not None and member.bits is not None
