"""`--fixed Q`: a `float` becomes an `int` and a `double` an `int64_t` with Q bits after the point. Exact where no value has more bits after the point nor more before it than are left; else products are rounded down."""
from typing import List, Optional

from ..faults import Refused
from ..tree.folding import constant
from ..tree.kinds import BOOL, INT, INT64, Array, Carrier, Floating, Kind, Whole
from ..tree.making import binary, cast, choose, number
from ..tree.nodes import Assign, Binary, Bits, Cast, Choose, Expression, Name, Node, Number, Step
from ..tree.program import Function, Program, Variable
from ..tree.statements import Block, Statement
from ..tree.walking import mapped, replaced, walk
from .marking import tolerant


def whole_of(kind: Kind) -> Kind:
    """The kind of whole numbers for one of floats."""
    if isinstance(kind, Floating):
        return INT if kind.bits == 32 else INT64
    if isinstance(kind, Array):
        return Array(whole_of(kind.element), kind.length)
    return Carrier(kind.sort, whole_of(kind.element), kind.length, kind.depth, kind.is_const) if isinstance(kind, Carrier) else kind


def has_float(kind: Kind) -> bool:
    return whole_of(kind) != kind


class Fixer:
    """The expressions of one program with Q bits after the point."""

    def __init__(self, program: Program, bits: int) -> None:
        self.program, self.bits = program, bits

    def number(self, it: Number) -> Number:
        scaled = it.value * (1 << self.bits)
        if scaled != int(scaled):
            self.program.note(it.at, f"the number {it.value:g}", f"{round(scaled)} / {1 << self.bits}, which is not the same")
        made = Number(whole_of(it.kind), round(scaled))
        made.at = it.at
        return made

    def value(self, it: Expression) -> Expression:
        if isinstance(it, Number) and isinstance(it.kind, Floating):
            return self.number(it)
        if isinstance(it, Cast):
            return self.cast(it)
        if isinstance(it, Bits):
            return cast(whole_of(it.kind), self.value(it.operand))
        if isinstance(it, Binary) and (isinstance(it.kind, Floating) or isinstance(it.left.kind, Floating)):
            return self.binary(it)
        if isinstance(it, Assign) and isinstance(it.target.kind, Floating):
            return self.assigned(it)
        if isinstance(it, Step) and isinstance(it.target.kind, Floating):
            kind = whole_of(it.kind)
            return Assign(kind, f"{it.sign[0]}=", self.value(it.target), number(1 << self.bits))
        if isinstance(it, Choose) and isinstance(it.kind, Floating):
            kind = whole_of(it.kind)
            return choose(self.value(it.test), self.value(it.then), self.value(it.other), kind)
        if isinstance(it, Name):
            return replaced(it, kind=it.variable.kind, text=it.text) if it.kind != it.variable.kind and has_float(it.kind) else it
        made: Expression = mapped(it, lambda each: self.value(each) if isinstance(each, Expression) else each)
        return replaced(made, kind=whole_of(made.kind)) if has_float(made.kind) else made

    def cast(self, it: Cast) -> Expression:
        inner = self.value(it.operand)
        if isinstance(it.kind, Floating) and isinstance(it.operand.kind, Whole):
            kind = whole_of(it.kind)
            known = constant(inner)
            assert isinstance(kind, Whole)
            return Number(kind, kind.wrapped(known << self.bits)) if known is not None else binary("<<", cast(kind, inner), number(self.bits))
        if isinstance(it.operand.kind, Floating) and it.kind == BOOL:
            return binary("!=", inner, number(0))
        if isinstance(it.operand.kind, Floating) and isinstance(it.kind, Whole):
            return cast(it.kind, binary("/", inner, number(1 << self.bits)))
        if isinstance(it.operand.kind, Floating):
            return cast(whole_of(it.kind), inner)
        return replaced(it, operand=inner) if inner is not it.operand else it

    def binary(self, it: Binary) -> Expression:
        left, right = self.value(it.left), self.value(it.right)
        if it.sign not in ("*", "/"):
            return binary(it.sign, left, right) if it.sign not in ("+", "-") else Binary(whole_of(it.kind), it.sign, left, right)
        kind = whole_of(it.kind)
        if it.sign == "*":
            return cast(kind, binary(">>", binary("*", cast(INT64, left), right), number(self.bits)))
        if constant(right) is None or constant(right) == 0:
            raise Refused(it.at, "a division of floats by what is no constant", "a product with the inverse, or a task that divides")
        return cast(kind, binary("/", binary("<<", cast(INT64, left), number(self.bits)), right))

    def assigned(self, it: Assign) -> Expression:
        kind, target = whole_of(it.target.kind), self.value(it.target)
        if it.sign in ("=", "+=", "-="):
            made = Assign(kind, it.sign, target, self.value(it.value))
        else:
            made = Assign(kind, "=", target, self.binary(Binary(it.kind, it.sign[0], it.target, it.value)))
        made.at = it.at
        return made


def first_float(function: Function) -> Optional[int]:
    """The offset of the first float in a task."""
    for each in function.parameters:
        if has_float(each.kind):
            return each.at
    for it in walk(function.body):
        variable = getattr(it, "variable", None)
        if isinstance(it, Expression) and has_float(it.kind) or isinstance(variable, Variable) and has_float(variable.kind):
            return it.at if it.at >= 0 else function.at
    return None


def run(program: Program, bits: Optional[int]) -> None:
    found: List[Function] = [it for it in program.tasks if it.body is not None and first_float(it) is not None]
    if found and bits is None:
        for function in found:
            at = first_float(function)
            program.mark(at if at is not None else function.at, f"`float` in `{function.name}`", "`--fixed Q` makes it an `int` with Q bits after the point")
        return
    fixer = Fixer(program, bits or 0)
    for function in found:
        variables = [*function.parameters, *(getattr(it, "variable") for it in walk(function.body) if isinstance(getattr(it, "variable", None), Variable))]
        for variable in variables:
            if has_float(variable.kind):
                program.note(variable.at, f"`{variable.name}` of floats", f"whole numbers with {bits} bits after the point")
                variable.kind = whole_of(variable.kind)

    def part(it: Node) -> Node:
        return fixer.value(it) if isinstance(it, Expression) else it if isinstance(it, Block) else mapped(it, part)

    def change(it: Statement) -> Statement:
        return mapped(it, part)
    for function in found:
        assert function.body is not None
        function.body = tolerant(program, function.body, change)
