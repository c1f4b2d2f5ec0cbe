"""Expressions as text: as they were written where no pass touched them, and else with as few parentheses as the language's levels need."""


from ..tree.folding import constant
from ..tree.kinds import BOOL, INT, INT64, UINT32, UINT64, Kind, Whole, met, promoted
from ..tree.nodes import Assign, Binary, Bit, Bits, Braces, Call, Cast, Choose, Comma, Expression, Field, Index, Lambda, Name, Null, Number, Operation, Step, Text, This, Unary, Unknown

LEVELS = {"||": 2, "&&": 3, "|": 4, "^": 5, "&": 6, "==": 7, "!=": 7, "<": 8, "<=": 8, ">": 8, ">=": 8, "<<": 9, ">>": 9, "+": 10, "-": 10, "*": 11, "/": 11, "%": 11}
SUM, UNARY, PRIMARY = 10, 12, 13
SUFFIX = {UINT32: "u", INT64: "l", UINT64: "ul"}


def natural(value: int, is_hexadecimal: bool = False) -> Whole:
    """The kind that a literal without a suffix has."""
    if -2 ** 31 < value < 2 ** 31:
        return INT
    return UINT32 if is_hexadecimal and 0 <= value < 2 ** 32 else INT64


def literal(it: Number, is_exact: bool) -> str:
    """A constant; with a suffix where its kind counts."""
    value = int(it.value)
    kind = it.kind
    if kind == BOOL and is_exact:
        return "true" if value else "false"
    if not isinstance(kind, Whole):
        return f"{it.value:g}"
    if value == -2 ** 63:
        return "(-9223372036854775807 - 1)"
    if value == -2 ** 31 and kind == INT:
        return "(-2147483647 - 1)"
    suffix = SUFFIX.get(promoted(kind), "") if is_exact or not -2 ** 31 < value < 2 ** 31 else ""
    if suffix == "l" and not -2 ** 31 < value < 2 ** 31:
        suffix = ""
    if value >= 1024 and not kind.is_signed and is_mask(value):
        return f"{hex(value)}{suffix.replace('ul', 'u') if value >= 2 ** 32 else suffix}"
    if suffix == "ul" and value >= 2 ** 32:
        suffix = "u"
    return f"{value}{suffix}"


def is_mask(value: int) -> bool:
    """Whether a number is easier to read in hexadecimal."""
    text = f"{value:x}"
    return len(set(text)) <= 3 and ("f" in text or value >= 2 ** 16)


class Writer:
    """Texts of expressions; `is_plain` ignores what was written, so that equal expressions have equal texts."""

    def __init__(self, is_plain: bool = False) -> None:
        self.is_plain = is_plain

    def text(self, it: Expression, level: int = 0, is_exact: bool = True) -> str:
        """An expression at a place where operators of a level and above need no parentheses."""
        kept = it.text if not self.is_plain else None
        if kept is None:
            kept = self.made(it, is_exact)
        return f"({kept})" if self.level(it) < level else kept

    def level(self, it: Expression) -> int:
        if isinstance(it, Binary):
            return LEVELS[it.sign]
        if isinstance(it, (Choose, Assign, Comma)):
            return 1
        if isinstance(it, (Unary, Cast, Step)):
            return UNARY
        if isinstance(it, Number) and it.value < 0 and int(it.value) not in (-2 ** 31, -2 ** 63):
            return UNARY
        return SUM if isinstance(it, Operation) and it.method in ("<<", ">>") else PRIMARY

    def made(self, it: Expression, is_exact: bool) -> str:
        if isinstance(it, Number):
            return literal(it, is_exact)
        if isinstance(it, Name):
            return it.variable.name
        if isinstance(it, Null):
            return "nullptr"
        if isinstance(it, Unary):
            inner = self.text(it.operand, UNARY, is_exact)
            return it.sign + (" " if inner.startswith(it.sign) and it.sign in "+-" else "") + inner
        if isinstance(it, Binary):
            return self.binary(it, is_exact)
        if isinstance(it, Assign):
            return f"{self.text(it.target)} {it.sign} {self.text(it.value, 0, False)}"
        if isinstance(it, Step):
            return it.sign + self.text(it.target) if it.is_prefix else self.text(it.target) + it.sign
        if isinstance(it, Choose):
            return f"{self.text(it.test, 2)} ? {self.arm(it.then, it.kind)} : {self.arm(it.other, it.kind)}"
        if isinstance(it, Cast):
            return f"({it.kind}) {self.text(it.operand, UNARY, self.is_wide(it))}"
        if isinstance(it, Index):
            return f"{self.text(it.base, PRIMARY)}[{self.text(it.index, 0, False)}]"
        return self.other(it)

    def arm(self, it: Expression, kind: Kind) -> str:
        """An arm of `?:`; both arms meet in one kind."""
        text = self.text(it, 1, False)
        return f"({text})" if isinstance(it, Choose) and False else text

    def is_wide(self, it: Cast) -> bool:
        """Whether the kind of a converted literal counts."""
        known = constant(it.operand)
        return not (isinstance(it.operand, Number) and known is not None and isinstance(it.kind, Whole) and it.kind.wrapped(known) == known)

    def binary(self, it: Binary, is_exact: bool) -> str:
        level = LEVELS[it.sign]
        left, right = it.left, it.right
        if it.sign in ("<<", ">>"):
            return f"{self.text(left, level, True)} {it.sign} {self.text(right, level + 1, False)}"
        exact = [self.counts(one, other, it, is_exact) for one, other in ((left, right), (right, left))]
        return f"{self.text(left, level, exact[0])} {it.sign} {self.text(right, level + 1, exact[1])}"

    def counts(self, it: Expression, other: Expression, whole: Binary, is_exact: bool) -> bool:
        """Whether the kind of an operand counts: not that of a literal whose other operand brings the kind in which both meet."""
        if not isinstance(it, Number) or not isinstance(it.kind, Whole) or not isinstance(other.kind, Whole):
            return True
        if whole.sign in ("&&", "||"):
            return it.kind == BOOL
        if isinstance(other, Number):
            return True
        del is_exact
        return met(natural(int(it.value)), other.kind) != met(it.kind, other.kind) or it.kind == BOOL and whole.sign in ("==", "!=")

    def other(self, it: Expression) -> str:
        if isinstance(it, Field):
            return f"{self.text(it.base, PRIMARY)}.{it.name}"
        if isinstance(it, Operation):
            return self.operation(it)
        if isinstance(it, Call):
            target = f"{self.text(it.target, PRIMARY)}." if it.target is not None else ""
            return f"{target}{it.function.name}({', '.join(self.text(each) for each in it.arguments)})"
        if isinstance(it, Braces):
            return f"{{{', '.join(self.text(each) for each in it.values)}}}"
        if isinstance(it, Comma):
            return f"{self.text(it.left)}, {self.text(it.right)}"
        if isinstance(it, Text):
            return f'"{it.value}"'
        if isinstance(it, Bits):
            return f"bits_of<{it.kind}>({self.text(it.operand)})"
        if isinstance(it, Bit):
            return f"{self.text(it.base, PRIMARY)}.range({self.text(it.high)}, {self.text(it.low)})"
        if isinstance(it, This):
            return "*this"
        return "[]" if isinstance(it, Lambda) else f"/* {it.why} */" if isinstance(it, Unknown) else "?"

    def operation(self, it: Operation) -> str:
        stream = self.text(it.stream, PRIMARY)
        if it.method == "<<":
            return " << ".join([stream, *(self.text(each, SUM, False) for each in it.arguments)])
        if it.method == ">>":
            return " >> ".join([stream, *(self.text(each, PRIMARY) for each in it.arguments)])
        return f"{stream}.{it.method}({', '.join(self.text(each, 0, False) for each in it.arguments)})"


def shown(it: Expression, level: int = 0, is_exact: bool = False) -> str:
    """The text of an expression in the ported source."""
    return Writer().text(it, level, is_exact)


def plain(it: Expression) -> str:
    """A text by which expressions are compared."""
    return Writer(True).text(it)
