"""Operators, indices, fields, lists of values and lambdas."""
import re
from typing import Any, Callable, Dict, List

from ..source.clang import kids, span
from ..tree.kinds import LAMBDA, Array, Carrier, Record, Whole
from ..tree.nodes import Assign, Binary, Braces, Choose, Comma, Expression, Field, Index, Lambda, Name, Number, Step, This, Unary
from ..tree.program import Function
from .calls import Calls
from .literals import Literals

ASSIGNS = ("=", "+=", "-=", "*=", "/=", "%=", "&=", "|=", "^=", "<<=", ">>=")
ARITHMETIC = ("*", "/", "%", "+", "-", "<<", ">>", "<", "<=", ">", ">=", "==", "!=", "&", "^", "|", "&&", "||")


class Operators(Calls, Literals):
    """Reads expressions of each sort."""

    def expression(self, cursor: Any) -> Expression:
        """The expression of a cursor."""
        reader = self.readers().get(cursor.kind.name)
        if reader is None:
            return self.refused(cursor, f"`{self.text(cursor)[:40]}`: an expression of this sort")
        made = reader(cursor)
        if made.at == -1 and not isinstance(made, This):
            made.at = self.at(cursor)
        return made

    def readers(self) -> Dict[str, Callable[[Any], Expression]]:
        if not hasattr(self, "table"):
            self.table: Dict[str, Callable[[Any], Expression]] = {
                "INTEGER_LITERAL": self.number, "CXX_BOOL_LITERAL_EXPR": self.number, "CHARACTER_LITERAL": self.number, "FLOATING_LITERAL": self.floating, "STRING_LITERAL": self.text_literal,
                "CXX_NULL_PTR_LITERAL_EXPR": self.null, "GNU_NULL_EXPR": self.null, "DECL_REF_EXPR": self.name, "UNEXPOSED_EXPR": self.unexposed, "PAREN_EXPR": self.parenthesis,
                "UNARY_OPERATOR": self.unary, "BINARY_OPERATOR": self.binary, "COMPOUND_ASSIGNMENT_OPERATOR": self.binary, "CONDITIONAL_OPERATOR": self.choose, "ARRAY_SUBSCRIPT_EXPR": self.subscript,
                "MEMBER_REF_EXPR": self.field, "CALL_EXPR": self.call, "CSTYLE_CAST_EXPR": self.cast, "CXX_FUNCTIONAL_CAST_EXPR": self.cast, "CXX_STATIC_CAST_EXPR": self.cast,
                "CXX_CONST_CAST_EXPR": self.cast, "CXX_UNARY_EXPR": self.sized, "SIZE_OF_PACK_EXPR": self.sized, "INIT_LIST_EXPR": self.braces, "LAMBDA_EXPR": self.lambda_, "CXX_THIS_EXPR": self.this,
                "COMPOUND_LITERAL_EXPR": self.parenthesis}
        return self.table

    def parenthesis(self, cursor: Any) -> Expression:
        return self.expression([it for it in kids(cursor) if it.kind.is_expression()][-1])

    def unary(self, cursor: Any) -> Expression:
        inner = kids(cursor)[0]
        text, begin = self.text(cursor), span(cursor)[0]
        is_prefix = span(inner)[0] > begin
        sign = self.words(cursor).text[begin:span(inner)[0]].strip() if is_prefix else text[-2:]
        sign = re.sub(r"/\*.*?\*/|//[^\n]*|\s", "", sign, flags=re.S)
        if sign in ("++", "--"):
            made: Expression = Step(self.kind(cursor), sign, is_prefix, self.expression(inner))
            self.keep(made, cursor)
            return made
        if sign == "*" and inner.kind == self.sort.CXX_THIS_EXPR:
            return This(self.kind(cursor))
        if sign in ("*", "&"):
            return self.pointed(cursor, sign, inner)
        if sign not in ("-", "+", "~", "!"):
            return self.refused(cursor, f"`{text[:40]}`: the operator `{sign}`")
        made = Unary(self.kind(cursor), sign, self.expression(inner))
        self.keep(made, cursor)
        return made

    def pointed(self, cursor: Any, sign: str, inner: Any) -> Expression:
        """`*a` of an array is its first cell; `&a[i]` in a call is the array from there on, which has no counterpart."""
        operand = self.expression(inner)
        if sign == "*" and isinstance(operand.kind, Array):
            return Index(operand.kind.element, operand, Number(Whole(32, True), 0))
        return self.refused(cursor, f"`{self.text(cursor)[:40]}`: a pointer", "an array or a memory, and an index")

    def binary(self, cursor: Any) -> Expression:
        left, right = kids(cursor)
        sign = self.between(left, right).strip("()")
        made: Expression
        if sign == ",":
            return Comma(self.kind(cursor), self.expression(left), self.expression(right))
        if sign in ASSIGNS:
            made = Assign(self.kind(cursor), sign, self.expression(left), self.expression(right))
        elif sign in ARITHMETIC:
            made = Binary(self.kind(cursor), sign, self.expression(left), self.expression(right))
        else:
            return self.refused(cursor, f"`{self.text(cursor)[:40]}`: the operator `{sign}`")
        if isinstance(made, Binary) and (isinstance(made.left.kind, Array) or isinstance(made.right.kind, Array)):
            return self.refused(cursor, f"`{self.text(cursor)[:40]}`: arithmetic on a pointer", "an array or a memory, and an index")
        self.keep(made, cursor)
        return made

    def choose(self, cursor: Any) -> Expression:
        parts = kids(cursor)
        if len(parts) != 3:
            return self.refused(cursor, "`?:` without its middle", "the value written twice")
        made = Choose(self.kind(cursor), *(self.expression(it) for it in parts))
        self.keep(made, cursor)
        return made

    def subscript(self, cursor: Any) -> Expression:
        base, index = (self.expression(it) for it in kids(cursor))
        if isinstance(index.kind, Array):
            base, index = index, base
        if not isinstance(base.kind, Array):
            return self.refused(cursor, f"`{self.text(cursor)[:40]}`: an index of what is no array")
        made = Index(base.kind.element, base, index)
        if isinstance(base, Name) and not isinstance(base.kind.element, Array):
            self.keep(made, cursor)
        return made

    def field(self, cursor: Any) -> Expression:
        """A field of a struct; a channel of an `async_mmap` too."""
        to = cursor.referenced
        if to is not None and to.kind == self.sort.VAR_DECL:
            return self.static_member(cursor, to)
        inner = [it for it in kids(cursor) if it.kind.is_expression()]
        base = self.expression(inner[0]) if inner else This(self.kinds.of(to.semantic_parent.type))
        if base.kind == LAMBDA:
            return self.refused(cursor, "a field of a lambda")
        member = base.kind.member(cursor.spelling) if isinstance(base.kind, Record) else None
        return Field(member.kind if member is not None and member.bits is not None else self.kind(cursor), base, cursor.spelling)

    def braces(self, cursor: Any) -> Expression:
        kind = self.kind(cursor)
        inner = [it for it in kids(cursor) if it.kind.is_expression()]
        if isinstance(kind, Whole):
            return self.expression(inner[0]) if inner else Number(kind, 0)
        if len(inner) == 1 and self.kind(inner[0]) == kind and inner[0].kind != self.sort.INIT_LIST_EXPR:
            return self.expression(inner[0])
        return Braces(kind, tuple(self.expression(it) for it in inner))

    def lambda_(self, cursor: Any) -> Expression:
        """A lambda; what it captures by copy is kept by name."""
        made = Function("lambda", self.kinds.of(cursor.type), at=self.at(cursor))
        parts = kids(cursor)
        made.parameters = [self.variable(it) for it in parts if it.kind == self.sort.PARM_DECL]
        body = next((it for it in reversed(parts) if it.kind == self.sort.COMPOUND_STMT), None)
        front = self.text(cursor).split("]")[0].lstrip("[").strip()
        by_name = [it.strip() for it in front.split(",") if it.strip()]
        if any("=" in it[1:] for it in by_name):
            return self.refused(cursor, "a lambda with a variable of its own", "a variable before it")
        captured: List[Any] = [it.referenced for it in parts if it.kind == self.sort.VARIABLE_REF]
        by_copy, by_reference = ([self.variable(it) for it in captured if it is not None and it.kind != self.sort.FIELD_DECL and sign + it.spelling in by_name] for sign in ("", "&"))
        made.name = "lambda"
        if body is not None:
            self.pending.append((made, body))
        return Lambda(LAMBDA, made, tuple(by_copy), tuple(by_reference) if by_name[:1] == ["="] else None)


def is_carrier(it: Expression) -> bool:
    return isinstance(it.kind, Carrier)
