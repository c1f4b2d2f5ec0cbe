"""`ap_uint` and `ap_int` of at most 64 bits: the next larger kind, which holds the value itself; each assignment cuts it to its width. Exact where a result has at most 64 bits, or is cut at once."""
from typing import Dict, List

from ..faults import Refused
from ..tree.folding import constant
from ..tree.kinds import BOOL, INT, INT64, UINT32, UINT64, Array, Carrier, Kind, Narrow, Whole, promoted
from ..tree.making import binary, cast, choose, number
from ..tree.nodes import Assign, Binary, Bit, Bits, Cast, Choose, Expression, Name, Node, Number, Step, Unary
from ..tree.program import Function, Program, Variable
from ..tree.statements import Statement
from ..tree.walking import mapped, replaced, walk
from .marking import tolerant

INSTEAD = "parts of at most 64 bits"
MODULO = ("+", "-", "*", "&", "|", "^", "<<")


def big(kind: Kind) -> Whole:
    """The kind in which a value of some width is computed."""
    if not isinstance(kind, Narrow):
        return kind if isinstance(kind, Whole) else INT
    if kind.bits <= 31 or kind.bits <= 32 and kind.is_signed:
        return INT
    if kind.bits <= 32:
        return UINT32
    return INT64 if kind.is_signed else UINT64


def holds(kind: Kind, bits: int, is_signed: bool) -> bool:
    """Whether a kind of whole numbers has all values of some width."""
    return isinstance(kind, Whole) and (kind.bits >= bits if kind.is_signed == is_signed else kind.is_signed and kind.bits > bits)


def width(it: Expression) -> "tuple[int, bool]":
    """How many bits the value of an expression needs, and whether it may be negative."""
    known = constant(it)
    if known is not None:
        return max(1, known.bit_length() + (known < 0)), known < 0
    kind = it.kind
    if isinstance(it, Bit):
        high, low = constant(it.high), constant(it.low)
        return (1 if it.high is it.low else 64 if high is None or low is None else high - low + 1), False
    if isinstance(it, Binary) and it.sign in ("+", "-", "*", "&", "|", "^") and isinstance(kind, Narrow):
        (left, is_left), (right, is_right) = width(it.left), width(it.right)
        both = max(left + (is_right and not is_left), right + (is_left and not is_right))
        found = {"+": both + 1, "-": both + 1, "*": left + right}.get(it.sign, both)
        return min(found, kind.bits), kind.is_signed if it.sign != "&" or known is not None else is_left and is_right
    return (kind.bits, kind.is_signed) if isinstance(kind, (Narrow, Whole)) else (64, True)


def is_shifted(it: Expression) -> bool:
    """Whether a value comes from `<<` that is left to be cut with what it is a part of."""
    return isinstance(it, Binary) and it.sign in MODULO and (it.sign == "<<" or is_shifted(it.left) or is_shifted(it.right))


def whole_kind(kind: Kind) -> Kind:
    """A kind with whole numbers in the place of narrow ones."""
    if isinstance(kind, Narrow):
        return kind.whole()
    if isinstance(kind, Array):
        return Array(whole_kind(kind.element), kind.length)
    return Carrier(kind.sort, whole_kind(kind.element), kind.length, kind.depth, kind.is_const) if isinstance(kind, Carrier) else kind


def ones(bits: int) -> Number:
    kind = INT if bits < 32 else UINT32 if bits == 32 else UINT64
    return Number(kind, (1 << bits) - 1)


def cut(it: Expression, kind: Narrow) -> Expression:
    """A whole number cut to a width, in the kind that holds it."""
    own = kind.whole()
    known = constant(it)
    if known is not None:
        return Number(own, Whole(kind.bits, kind.is_signed).wrapped(known) if kind.bits > 1 else known & 1 if not kind.is_signed else -(known & 1))
    if kind.bits == own.bits:
        return cast(own, it)
    if not kind.is_signed:
        return cast(own, binary("&", it, ones(kind.bits)))
    wide = INT if kind.bits <= 32 else INT64
    up = number(wide.bits - kind.bits)
    unsigned = Whole(wide.bits, False)
    return cast(own, binary(">>", cast(wide, binary("<<", cast(unsigned, it), up)), up))


class Narrower:
    """The expressions of one program."""

    def __init__(self) -> None:
        self.kinds: Dict[Variable, Kind] = {}

    def kind(self, variable: Variable) -> Kind:
        """The kind that a variable had."""
        return self.kinds.get(variable, variable.kind)

    def value(self, it: Expression, is_cut: int = 0) -> Expression:
        """An expression in whole numbers; `is_cut` says that only so many of its lower bits count, 0 that all do."""
        if isinstance(it.kind, Narrow) and width(it)[0] > 64 and not (is_cut and isinstance(it, Binary) and it.sign in MODULO):
            raise Refused(it.at, f"a number of {it.kind.bits} bits", INSTEAD)
        if isinstance(it, Assign):
            return self.assigned(it)
        if isinstance(it, Step) and isinstance(it.target.kind, Narrow):
            return self.assigned(Assign(it.kind, it.sign[0] + "=", it.target, number(1)))
        if isinstance(it, Bit):
            return self.bits(it)
        if isinstance(it, Bits):
            return cast(whole_kind(it.kind), self.value(it.operand)) if isinstance(it.kind, Narrow) or isinstance(it.operand.kind, Narrow) else replaced(it, operand=self.value(it.operand))
        if isinstance(it, Cast):
            inner = self.value(it.operand, it.kind.bits if isinstance(it.kind, (Whole, Narrow)) and it.kind != BOOL else 0)
            if isinstance(it.kind, Narrow):
                return cast(it.kind.whole(), inner) if self.fits(it.operand, it.kind) else cut(inner, it.kind)
            return replaced(it, operand=inner) if inner is not it.operand else it
        if isinstance(it, Binary):
            return self.binary(it, is_cut)
        if isinstance(it, Unary) and isinstance(it.operand.kind, Narrow):
            return self.unary(it)
        if isinstance(it, Choose) and isinstance(it.kind, Narrow):
            own = it.kind.whole()
            return choose(self.value(it.test), cast(own, self.value(it.then)), cast(own, self.value(it.other)), own)
        if isinstance(it, Name):
            return replaced(it, kind=it.variable.kind, text=it.text) if it.kind != it.variable.kind and isinstance(it.kind, (Narrow, Array, Carrier)) else it
        made: Expression = mapped(it, lambda each: self.value(each) if isinstance(each, Expression) else each)
        return replaced(made, kind=whole_kind(made.kind)) if isinstance(made.kind, (Narrow, Array, Carrier)) and whole_kind(made.kind) != made.kind else made

    def fits(self, it: Expression, kind: Narrow) -> bool:
        """Whether a value is one of a width without being cut."""
        if is_shifted(it):
            return False
        bits, is_signed = width(it)
        return bits <= kind.bits and is_signed == kind.is_signed or not is_signed and bits < kind.bits and kind.is_signed

    def unary(self, it: Unary) -> Expression:
        inner = self.value(it.operand)
        if it.sign == "!":
            return binary("==", inner, number(0))
        kind = it.kind
        assert isinstance(kind, Narrow)
        made = Unary(big(kind), it.sign, cast(big(kind), inner))
        return cut(made, kind) if it.sign == "~" else made

    def binary(self, it: Binary, is_cut: int) -> Expression:
        """An operation of which an operand has a width."""
        if not isinstance(it.left.kind, Narrow) and not isinstance(it.right.kind, Narrow):
            return mapped(it, lambda each: self.value(each) if isinstance(each, Expression) else each)
        if it.sign in ("&&", "||"):
            return binary(it.sign, self.value(it.left), self.value(it.right))
        if it.sign in ("<", "<=", ">", ">=", "==", "!="):
            return self.compared(it)
        kind = it.kind
        if not isinstance(kind, Narrow):
            return binary(it.sign, self.value(it.left), self.value(it.right))
        is_modulo = bool(is_cut) and it.sign in MODULO
        if it.sign in ("<<", ">>"):
            left = self.value(it.left)
            wide = left if holds(promoted(left.kind) if isinstance(left.kind, Whole) else left.kind, kind.bits, kind.is_signed) else cast(big(kind), left)
            made = binary(it.sign, wide, self.value(it.right))
            return cut(made, kind) if it.sign == "<<" and not (is_modulo and is_cut <= kind.bits) else made
        bits, is_signed = width(it)
        if bits > 64 and not is_modulo:
            raise Refused(it.at, f"a result of {kind.bits} bits", INSTEAD)
        left, right = self.value(it.left, is_cut if is_modulo else 0), self.value(it.right, is_cut if is_modulo else 0)
        plain = binary(it.sign, left, right)
        if holds(plain.kind, bits, is_signed) or is_modulo and isinstance(plain.kind, Whole) and plain.kind.bits >= is_cut:
            return plain
        own = INT64 if is_signed else UINT64
        if bits <= 64 and not is_modulo:
            own = big(Narrow(bits, is_signed))
        elif is_modulo and is_cut <= 32:
            own = INT if is_signed else UINT32
        return binary(it.sign, cast(own, left), cast(own, right))

    def compared(self, it: Binary) -> Expression:
        """A comparison of the values themselves, whatever their signs."""
        left, right = self.value(it.left), self.value(it.right)
        kinds = [each.kind for each in (it.left, it.right)]
        signs = [getattr(each, "is_signed", True) for each in kinds]
        bits = [getattr(each, "bits", 32) for each in kinds]
        known = [constant(each) for each in (left, right)]
        if signs[0] == signs[1] or any(value is not None and value >= 0 for value in known):
            return binary(it.sign, left, right)
        if max(size for size, sign in zip(bits, signs) if not sign) > 63:
            raise Refused(it.at, "a comparison of 64 bits with and without a sign", "both with a sign, or both without")
        return binary(it.sign, cast(INT64, left), cast(INT64, right))

    def bits(self, it: Bit) -> Expression:
        """Bits of a number, by a shift and a mask."""
        base, low = self.value(it.base), self.value(it.low)
        shifted = binary(">>", base, low) if constant(low) != 0 else base
        if it.high is it.low:
            return cast(BOOL, binary("&", shifted, number(1)))
        high, known = constant(it.high), constant(low)
        if high is None or known is None:
            raise Refused(it.at, "a range of bits whose ends are computed", "shifts and masks")
        return cast(UINT64, binary("&", shifted, ones(high - known + 1)))

    def assigned(self, it: Assign) -> Expression:
        """An assignment, cut to the width of its target."""
        target = it.target
        if isinstance(target, Bit):
            return self.bits_assigned(it, target)
        kind = target.kind
        if not isinstance(kind, Narrow):
            return mapped(it, lambda each: self.value(each, kind.bits if isinstance(kind, Whole) and kind != BOOL and it.sign == "=" else 0) if isinstance(each, Expression) else each)
        right = it.value
        if it.sign != "=":
            sign = it.sign[:-1]
            bits = min(kind.bits + (getattr(right.kind, "bits", 32) if sign == "*" else 2), 200) if sign not in ("<<", ">>") else kind.bits
            right = Binary(Narrow(bits if bits <= 64 or sign in MODULO else 64, kind.is_signed or getattr(right.kind, "is_signed", False)), sign, target, right)
        value = self.value(right, kind.bits)
        place = self.value(target)
        made = Assign(kind.whole(), "=", place, cast(kind.whole(), value) if self.fits(right, kind) else cut(value, kind))
        made.at = it.at
        return made

    def bits_assigned(self, it: Assign, target: Bit) -> Expression:
        base, low = self.value(target.base), self.value(target.low)
        high, known = constant(target.high), constant(low)
        count = 1 if target.high is target.low else None if high is None or known is None else high - known + 1
        kind = target.base.kind
        if count is None or it.sign != "=" or not isinstance(kind, Narrow):
            raise Refused(it.at, "bits that are assigned by a computed range", "shifts and masks")
        wide = UINT64 if kind.bits > 32 else UINT32
        value = self.value(it.value, count if count > 1 else 0)
        value = cast(wide, cast(BOOL, value)) if count == 1 else binary("&", cast(wide, value), ones(count))
        hole = Unary(wide, "~", binary("<<", cast(wide, ones(count)), low))
        new = binary("|", binary("&", cast(wide, base), hole), binary("<<", value, low))
        return Assign(kind.whole(), "=", base, cut(new, kind) if kind.is_signed else cast(kind.whole(), new))


def has_narrow(function: Function) -> bool:
    def of(kind: Kind) -> bool:
        return isinstance(kind, Narrow) or isinstance(kind, (Array, Carrier)) and of(kind.element)
    return any(of(it.kind) for it in function.parameters) or any(isinstance(it, (Bit,)) or isinstance(it, Expression) and of(it.kind) or of(getattr(getattr(it, "variable", None), "kind", INT)) for it in walk(function.body))


def run(program: Program) -> None:
    narrower = Narrower()
    found: List[Function] = [it for it in program.tasks if it.body is not None and has_narrow(it)]
    variables: List[Variable] = []
    for function in found:
        variables += [it for it in function.parameters] + [getattr(it, "variable") for it in walk(function.body) if isinstance(getattr(it, "variable", None), Variable)]
    for variable in variables:
        if whole_kind(variable.kind) != variable.kind:
            widest = variable.kind
            while isinstance(widest, (Array, Carrier)):
                widest = widest.element
            if isinstance(widest, Narrow) and widest.bits > 64:
                raise Refused(variable.at, f"`{variable.name}` has {widest.bits} bits", INSTEAD)
            program.note(variable.at, f"`{variable.name}` of {getattr(widest, 'bits', 0)} bits", f"`{whole_kind(widest)}`, cut to its width where it is assigned")
            variable.kind = whole_kind(variable.kind)
    for function in found:
        assert function.body is not None

        def change(it: Statement) -> Statement:
            return mapped(it, lambda each: part(each))

        def part(it: Node) -> Node:
            return narrower.value(it) if isinstance(it, Expression) else it if isinstance(it, Statement) and not hasattr(it, "expression") and type(it).__name__ == "Block" else mapped(it, part)
        function.body = tolerant(program, function.body, change)
