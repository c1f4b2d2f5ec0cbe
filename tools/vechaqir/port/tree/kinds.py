"""Kinds of values: those of the language, and those of C++ that become some of them."""
from dataclasses import dataclass
from typing import Any, Optional, Tuple, Union

# The value with which a field begins: a number, a tuple with one for each field or cell, or None where it is not known.
First = Union[None, int, float, Tuple[Any, ...]]


@dataclass(frozen=True)
class Kind:
    """What an expression or a variable is."""


@dataclass(frozen=True)
class Whole(Kind):
    """Whole numbers of 1, 8, 16, 32 or 64 bits; those of 1 bit are `bool`."""

    bits: int
    is_signed: bool

    def __str__(self) -> str:
        if self.bits == 1:
            return "bool"
        return "int" if self == INT else f"{'' if self.is_signed else 'u'}int{self.bits}_t"

    def wrapped(self, value: int) -> int:
        """A value converted to this kind."""
        if self.bits == 1:
            return int(value != 0)
        value &= (1 << self.bits) - 1
        return value - (1 << self.bits) if self.is_signed and value >> (self.bits - 1) else value


@dataclass(frozen=True)
class Narrow(Kind):
    """`ap_uint` and `ap_int` of some width."""

    bits: int
    is_signed: bool

    def whole(self) -> Whole:
        """The least kind that holds it; for more than 64 bits the largest, which holds its lower bits."""
        return Whole(next((it for it in (8, 16, 32, 64) if it >= self.bits), 64), self.is_signed)


@dataclass(frozen=True)
class Floating(Kind):
    """`float` and `double`."""

    bits: int

    def __str__(self) -> str:
        return "float" if self.bits == 32 else "double"


@dataclass(frozen=True)
class Member:
    """A field of a struct: its offset in bits, its size where it is a bit field, and the value it begins with."""

    name: str
    kind: Kind
    offset: int
    bits: Optional[int] = None
    first: First = 0


@dataclass(frozen=True)
class Record(Kind):
    """A struct; `why` says what of it cannot be ported, and `first` is what its own constructor without arguments gives."""

    name: str
    members: Tuple[Member, ...]
    bits: int
    why: str = ""
    first: First = 0

    def member(self, name: str) -> Optional[Member]:
        return next((it for it in self.members if it.name == name), None)

    def __str__(self) -> str:
        return self.name


@dataclass(frozen=True)
class Array(Kind):
    """An array; a length of 0 is that of a parameter whose length is not written."""

    element: Kind
    length: int


@dataclass(frozen=True)
class Carrier(Kind):
    """Streams, memories and arrays of them: `sort` is the word of `tapa`."""

    sort: str
    element: Kind
    length: int = 0
    depth: int = 2
    is_const: bool = False


@dataclass(frozen=True)
class Plain(Kind):
    """A kind without values of its own: `void`, `task`, `seq`, a text, a function, or one that is not known."""

    name: str


BOOL, INT = Whole(1, False), Whole(32, True)
UINT8, UINT16, UINT32, UINT64 = (Whole(it, False) for it in (8, 16, 32, 64))
INT8, INT16, INT64 = (Whole(it, True) for it in (8, 16, 64))
FLOAT, DOUBLE = Floating(32), Floating(64)
VOID, TASK, SEQ, TEXT, FUNCTION, LAMBDA = (Plain(it) for it in ("void", "task", "seq", "text", "function", "lambda"))

STREAMS = ("istream", "ostream", "stream")
MEMORIES = ("mmap", "async_mmap")
MANY = ("istreams", "ostreams", "streams", "mmaps", "async_mmaps")


def promoted(kind: Whole) -> Whole:
    """What a value becomes in an expression."""
    return INT if kind.bits < 32 else kind


def met(left: Whole, right: Whole) -> Whole:
    """The kind in which two operands meet."""
    left, right = promoted(left), promoted(right)
    bits = max(left.bits, right.bits)
    return Whole(bits, all(it.is_signed for it in (left, right) if it.bits == bits))


def holding(bits: int) -> Whole:
    """The least kind without sign of at least so many bits."""
    return Whole(next((it for it in (1, 8, 16, 32, 64) if it >= bits), 64), False)


def is_many(kind: Kind) -> bool:
    """Whether it is an array of streams or memories."""
    return isinstance(kind, Carrier) and kind.sort in MANY


def is_stream(kind: Kind) -> bool:
    return isinstance(kind, Carrier) and kind.sort in STREAMS


def is_memory(kind: Kind) -> bool:
    return isinstance(kind, Carrier) and kind.sort in MEMORIES


def innermost(kind: Kind) -> Kind:
    """The element of an array of any dimensions, or the kind itself."""
    while isinstance(kind, Array):
        kind = kind.element
    return kind
