"""Calls: of functions, methods, operators, constructors, lambdas, and operations on streams and memories."""
import re
from typing import Any, List, Optional, Tuple

from ..source.clang import kids, span, value
from ..tree.kinds import BOOL, LAMBDA, UINT64, Carrier, Kind, Narrow, Plain, Record, Whole, is_memory, is_stream
from ..tree.nodes import Assign, Binary, Bit, Braces, Call, Cast, Expression, Index, Lambda, Name, Number, Operation, Step, This, Unary
from ..tree.program import Function, Variable
from .context import Context
from .kinds import is_reference

LOOKS = ("read", "peek", "eot", "open", "write", "close", "empty", "full", "try_read", "try_peek", "try_eot", "try_open", "try_write", "try_close")
FORM = re.compile(r"[A-Za-z_]\w*\s*\.\s*(read\s*\(\s*\)|open\s*\(\s*\)|close\s*\(\s*\)|(?:peek|eot)\s*\(\s*nullptr\s*\)|write\s*\()")
REFERENCES = ("operator[]", "get")


class Calls(Context):
    """Reads calls."""

    def call(self, cursor: Any) -> Expression:
        to = cursor.referenced
        if to is None:
            return self.call_of_value(cursor)
        if to.kind == self.sort.CONSTRUCTOR:
            return self.constructed(cursor, to)
        found = self.method(cursor)
        if found is not None:
            return self.method_call(cursor, to, *found)
        if to.kind in (self.sort.FUNCTION_DECL, self.sort.FUNCTION_TEMPLATE):
            return self.function_call(cursor, to)
        if to.kind == self.sort.CXX_METHOD and to.is_static_method():
            return self.called(cursor, to, None, self.arguments(cursor))
        return self.call_of_value(cursor)

    def call_of_value(self, cursor: Any) -> Expression:
        """A call of a function that is an argument of a template, or of a constant function."""
        to = next(iter(kids(cursor)), None)
        while to is not None and to.kind.name in ("UNEXPOSED_EXPR", "PAREN_EXPR", "DECL_REF_EXPR", "UNARY_OPERATOR") and to.referenced is None:
            to = next(iter(kids(to)), None)
        if to is not None and to.referenced is not None and to.referenced.kind == self.sort.FUNCTION_DECL:
            return self.function_call(cursor, to.referenced)
        known = value(cursor)
        if known is not None and isinstance(self.kind(cursor), Whole):
            return self.number_of(cursor, known)
        return self.refused(cursor, f"`{self.text(cursor)[:40]}`: a call of this sort", "a function of the source, or the expression written out")

    def number_of(self, cursor: Any, known: int) -> Number:
        kind = self.kind(cursor)
        made = Number(kind, kind.wrapped(known) if isinstance(kind, Whole) else known)
        made.at = self.at(cursor)
        return made

    def arguments(self, cursor: Any) -> List[Any]:
        return [it for it in cursor.get_arguments() if it is not None]

    def method(self, cursor: Any) -> Optional[Tuple[str, Any, List[Any]]]:
        """Of a call of a method or of an operator its name, the object and the arguments."""
        parts = kids(cursor)
        if not parts:
            return None
        if cursor.spelling.startswith("operator") and len(parts) > 1 and self.is_operator(parts[1]):
            return cursor.spelling, parts[0], parts[2:]
        if cursor.spelling.startswith("operator") and len(parts) > 1 and self.is_operator(parts[0]):   # a unary operator before its operand
            return cursor.spelling, parts[1], parts[2:]
        first = parts[0]
        if first.kind == self.sort.MEMBER_REF_EXPR:
            inner = [it for it in kids(first) if it.kind.is_expression()]
            return cursor.spelling, inner[0] if inner else None, self.arguments(cursor)
        return None

    def is_operator(self, cursor: Any) -> bool:
        while cursor.kind in (self.sort.UNEXPOSED_EXPR, self.sort.PAREN_EXPR) and len(kids(cursor)) == 1:
            cursor = kids(cursor)[0]
        return bool(cursor.kind == self.sort.DECL_REF_EXPR and cursor.spelling.startswith("operator"))

    def method_call(self, cursor: Any, to: Any, name: str, target: Any, given: List[Any]) -> Expression:
        """A call on an object: of a stream, a memory, a number of some width, a lambda, or a struct."""
        kind = self.kind(target) if target is not None else None
        if isinstance(kind, Carrier):
            return self.carried(cursor, name, target, given)
        if isinstance(kind, Narrow) or kind == Plain("ap_bit") or isinstance(kind, Record) and kind.name in ("ap_bit", "ap_range"):
            return self.narrow(cursor, name, target, given)
        if isinstance(kind, Record) and kind.name.startswith("std::") and "ostream" in kind.name:
            return self.printed(cursor)
        if any(isinstance(self.kind(it), Narrow) for it in given) and name.startswith("operator") and to.kind == self.sort.FUNCTION_DECL:
            return self.narrow(cursor, name, target, given)
        if kind == LAMBDA and name == "operator()":
            return self.lambda_call(cursor, target, given)
        if to.kind == self.sort.FUNCTION_DECL:
            return self.called(cursor, to, None, [target, *given])
        if to.kind in (self.sort.CXX_METHOD, self.sort.CONVERSION_FUNCTION):
            return self.called(cursor, to, target, given)
        return self.refused(cursor, f"`{self.text(cursor)[:40]}`: a call of this sort")

    def printed(self, cursor: Any) -> Expression:
        """Printing: nothing of it stays."""
        made = Braces(Plain("printed"), ())
        made.at = self.at(cursor)
        return made

    def lambda_call(self, cursor: Any, target: Any, given: List[Any]) -> Expression:
        of = self.expression(target)
        made = of.variable.first if isinstance(of, Name) else of
        if not isinstance(made, Lambda):
            return self.refused(cursor, "a call of what is no lambda that is known")
        made.function.result = self.kind(cursor)
        return Call(self.kind(cursor), made.function, None, tuple(self.expression(it) for it in given))

    def function_call(self, cursor: Any, to: Any) -> Expression:
        given = self.arguments(cursor)
        if to.spelling in ("memcpy", "memset") and not self.parsed.is_own(to):
            return self.copied(cursor, to.spelling, given)
        known = value(cursor)
        if known is not None and isinstance(self.kind(cursor), Whole):
            return self.number_of(cursor, known)
        return self.called(cursor, to, None, given)

    def copied(self, cursor: Any, name: str, given: List[Any]) -> Expression:
        """`memcpy` and `memset` of arrays, which a pass writes as a loop."""
        made = Operation(Plain(name), name, self.expression(given[0]), tuple(self.expression(it) for it in given[1:]))
        made.at = self.at(cursor)
        return made

    def called(self, cursor: Any, to: Any, target: Optional[Any], given: List[Any]) -> Expression:
        """A call of a function with a body."""
        definition = to.get_definition() or to
        if to.kind == self.sort.CXX_METHOD and to.location == to.semantic_parent.location:   # an implicit one
            return self.implicit(cursor, target, given)
        function = self.function(definition)
        if function is None:
            known = value(cursor)
            if known is not None and isinstance(self.kind(cursor), Whole):
                return self.number_of(cursor, known)
            return self.refused(cursor, f"`{to.spelling}` is declared, but has no body here", "the expression written out")
        object_ = self.expression(target) if target is not None else This(Plain("this")) if to.kind in (self.sort.CXX_METHOD, self.sort.CONVERSION_FUNCTION) and not to.is_static_method() else None
        filled = []
        for at, it in enumerate(given):
            made = self.expression(it)
            if made.at == -2 and at < len(function.parameters) and function.parameters[at].first is not None:
                made = function.parameters[at].first or made
            filled.append(made)
        for it, made in zip(function.parameters, filled):
            known_lambda = made.variable.first if isinstance(made, Name) else made
            if it.kind == LAMBDA and isinstance(known_lambda, Lambda):   # a function has an instance of its own for each lambda
                it.first = known_lambda
        return Call(self.kinds.of(cursor.type), function, object_, tuple(filled))

    def implicit(self, cursor: Any, target: Any, given: List[Any]) -> Expression:
        """An assignment of a struct as a whole."""
        if cursor.spelling == "operator=" and given:
            return Assign(self.kind(cursor), "=", self.expression(target), self.expression(given[0]))
        return self.refused(cursor, f"`{self.text(cursor)[:40]}`: a method that the source does not have")

    def constructed(self, cursor: Any, to: Any) -> Expression:
        """A struct from values: by its own constructor, by a copy, or with nothing."""
        kind, given = self.kind(cursor), self.arguments(cursor)
        if isinstance(kind, (Narrow, Carrier)) or kind in (Plain("task"), Plain("seq")):
            return self.made_of_tapa(cursor, kind, given)
        if len(given) == 1 and self.kind(given[0]) == kind:
            return self.expression(given[0])
        is_implicit = to.location == to.semantic_parent.location or to.is_default_method() or not isinstance(kind, Record)
        if is_implicit:
            return Braces(kind, ()) if not given else self.refused(cursor, f"`{self.text(cursor)[:40]}`: a struct made so")
        function = self.function(to.get_definition() or to)
        if function is None:
            return Braces(kind, ()) if not given else self.refused(cursor, f"`{self.text(cursor)[:40]}`: a constructor without a body")
        filled = [self.expression(it) for it in given]
        for at, made in enumerate(filled):
            first = function.parameters[at].first if at < len(function.parameters) else None
            filled[at] = first if made.at == -2 and first is not None else made
        return Call(kind, function, None, tuple(filled))

    def made_of_tapa(self, cursor: Any, kind: Kind, given: List[Any]) -> Expression:
        if isinstance(kind, Narrow):
            if not given:
                return Number(kind.whole(), 0)
            inner = self.expression(given[0])
            return inner if inner.kind == kind else self.cast_to(kind, inner, cursor)
        return Braces(kind, tuple(self.expression(it) for it in given))

    def cast_to(self, kind: Kind, inner: Expression, cursor: Any) -> Expression:
        made = Cast(kind, inner)
        made.at = self.at(cursor)
        return made

    def function(self, cursor: Any) -> Optional[Function]:
        """The function of a definition; its body is read later."""
        body = next((it for it in kids(cursor) if it.kind == self.sort.COMPOUND_STMT), None)
        if body is None or not cursor.is_definition():
            return None
        key = (*self.key(cursor), cursor.get_usr())
        if key not in self.functions:
            made = Function(self.instance_name(cursor), self.kinds.of(cursor.result_type), at=self.at(cursor), is_reference=is_reference(cursor.result_type))
            made.is_instance, made.word = made.name != cursor.spelling, cursor.spelling
            self.functions[key] = made
            made.key, made.end, made.is_own = cursor.location.offset, span(cursor)[1], self.parsed.is_own(cursor)
            made.is_constructor = cursor.kind == self.sort.CONSTRUCTOR
            made.parameters = [self.parameter(it) for it in kids(cursor) if it.kind == self.sort.PARM_DECL]
            made.filled = self.fills(cursor) if made.is_constructor else []
            self.pending.append((made, body))
        return self.functions[key]

    def instance_name(self, cursor: Any) -> str:
        """The name of a function; for an instance of a template with its arguments."""
        if cursor.kind != self.sort.FUNCTION_DECL:
            return str(cursor.spelling)
        words = [cursor.spelling]
        for at in range(max(0, cursor.get_num_template_arguments())):
            try:
                sort = cursor.get_template_argument_kind(at).name
            except ValueError:   # a pack, which this binding does not know
                words.append(str(1 + sum(1 for it in self.functions.values() if it.name.startswith(f"{cursor.spelling}_"))))
                break
            if sort == "TYPE":
                kind = self.kinds.of(cursor.get_template_argument_type(at))
                words.append(str(kind) if isinstance(kind, (Whole, Record)) else cursor.get_template_argument_type(at).spelling)
            elif sort == "INTEGRAL":
                words.append(str(cursor.get_template_argument_value(at)).replace("-", "minus_"))
        return "_".join(re.sub(r"\W+", "_", word).strip("_") for word in words)

    def parameter(self, cursor: Any) -> Variable:
        it = self.variable(cursor)
        first = [each for each in kids(cursor) if each.kind.is_expression() and span(each)[0] > cursor.location.offset]
        if first and it.first is None and "=" in self.text(cursor):
            it.first = self.expression(first[-1])
        return it

    def fills(self, cursor: Any) -> List[Tuple[str, Expression]]:
        """The fields that a constructor fills before its body."""
        parts = [it for it in kids(cursor) if it.kind not in (self.sort.PARM_DECL, self.sort.COMPOUND_STMT)]
        return [(field.spelling, self.expression(first)) for field, first in zip(parts, parts[1:]) if field.kind == self.sort.MEMBER_REF and first.kind.is_expression()]

    def carried(self, cursor: Any, name: str, target: Any, given: List[Any]) -> Expression:
        """An operation on a stream, an element of an array of streams, or a cell of a memory."""
        object_ = self.expression(target)
        kind = object_.kind
        if name == "operator[]" and given:
            made: Expression = Index(self.element(kind, cursor), object_, self.expression(given[0]))
            if is_memory(kind) and isinstance(object_, Name):
                self.keep(made, cursor)
            return made
        if name in ("operator<<", "operator>>") and given:
            values = tuple(self.expression(it) for it in given)
            before = object_.arguments if isinstance(object_, Operation) and object_.method == name[8:] else ()
            made = Operation(Plain("void"), name[8:], object_.stream if isinstance(object_, Operation) and before else object_, (*before, *values))
            if isinstance(made.stream, Name):
                self.keep(made, cursor)
            return made
        if name in LOOKS and is_stream(kind):
            made = Operation(self.kind(cursor), name, object_, tuple(self.expression(it) for it in given))
            if isinstance(object_, Name) and FORM.match(self.text(cursor)) and not (name == "read" and given):
                self.keep(made, cursor)
            return made
        return self.refused(cursor, f"`{name}` of `{self.text(target)}`", "an index: a memory has no methods" if is_memory(kind) else "")

    def element(self, kind: Kind, cursor: Any) -> Kind:
        if isinstance(kind, Carrier) and is_memory(kind):
            return kind.element
        if isinstance(kind, Carrier):
            return Carrier(kind.sort[:-1], kind.element, 0, kind.depth, kind.is_const)
        return self.kind(cursor)

    def narrow(self, cursor: Any, name: str, target: Any, given: List[Any]) -> Expression:
        """An operation on an `ap_uint` or `ap_int`."""
        object_, values = self.expression(target), [self.expression(it) for it in given]
        kind = self.kind(cursor)
        sign = name[8:].strip()
        if name in ("range", "operator()", "bit", "test", "operator[]"):
            return Bit(UINT64 if len(values) > 1 else BOOL, object_, values[0], values[-1])
        if name.startswith("to_") or sign in ("unsigned long", "bool"):
            return object_ if isinstance(object_, Bit) else Cast(kind, object_)
        if sign in ("++", "--"):
            return Step(object_.kind, sign, not values, object_)
        if sign in ("=", "+=", "-=", "*=", "/=", "%=", "&=", "|=", "^=", "<<=", ">>=") and values:
            return Assign(object_.kind, sign, object_, values[0])
        if not values and sign in ("~", "-", "!"):
            return Unary(kind, sign, object_)
        if len(values) == 1 and sign in ("+", "-", "*", "/", "%", "&", "|", "^", "<<", ">>", "==", "!=", "<", "<=", ">", ">="):
            return Binary(kind, sign, object_, values[0])
        return self.refused(cursor, f"`{name}` of a number of {getattr(object_.kind, 'bits', 64)} bits", "shifts and masks")
