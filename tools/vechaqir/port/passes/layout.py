"""How a struct is in words of at most 64 bits: at the offsets that C++ gives its fields, so that a packed token is the bytes of the struct."""
from typing import Dict, List, NamedTuple, Tuple, Union

from ..tree.kinds import BOOL, Array, Floating, Kind, Narrow, Record, Whole, holding

Path = Tuple[Union[str, int], ...]
MOST_WORDS = 64
MOST_LEAVES = 4096


class Leaf(NamedTuple):
    """A field of numbers: its way from the outside, its kind, the word where it begins, the shift there, and its bits. Its upper bits may be in the next word."""

    path: Path
    kind: Kind
    word: int
    shift: int
    bits: int

    @property
    def over(self) -> int:
        """How many bits are in the next word; 0 for all fields but those of packed structs."""
        return max(0, self.shift + self.bits - 64)


def whole(kind: Kind) -> Whole:
    """The kind of whole numbers in which a field is kept."""
    if isinstance(kind, Whole):
        return kind
    return kind.whole() if isinstance(kind, Narrow) else Whole(kind.bits if isinstance(kind, Floating) else 64, False)


def bits_of(kind: Kind) -> int:
    """The bits that a value takes in a memory."""
    if isinstance(kind, Array):
        return kind.length * bits_of(kind.element)
    if isinstance(kind, Record):
        return kind.bits
    return max(8, whole(kind).bits)


class Layout:
    """The words of a kind, and where in them each field is; `why` says what cannot be packed."""

    def __init__(self, kind: Kind) -> None:
        self.kind, self.why = kind, ""
        self.leaves: List[Leaf] = []
        self.add(kind, 0, (), None)
        self.by_path: Dict[Path, Leaf] = {it.path: it for it in self.leaves}
        self.count = max(1, (bits_of(kind) + 63) // 64) if not self.why else 1
        if not self.leaves and not self.why:
            self.why = "it has no fields"
        if self.count > MOST_WORDS and not self.why:
            self.why = f"it has {bits_of(kind)} bits, and at most {64 * MOST_WORDS} become words"
        self.words = [self.word_kind(number) for number in range(self.count)] if not self.why else []

    def add(self, kind: Kind, at: int, path: Path, width: "int | None") -> None:
        if isinstance(kind, Record):
            self.why = self.why or kind.why
            for it in kind.members:
                self.add(it.kind, at + it.offset, (*path, it.name), it.bits)
        elif isinstance(kind, Array):
            if kind.length * max(1, len(path)) > MOST_LEAVES or len(self.leaves) > MOST_LEAVES:
                self.why = self.why or f"it has more than {MOST_LEAVES} cells"
                return
            for number in range(kind.length):
                self.add(kind.element, at + number * bits_of(kind.element), (*path, number), None)
        elif isinstance(kind, (Whole, Floating, Narrow)):
            size = width if width is not None else whole(kind).bits
            self.leaves.append(Leaf(path, kind, at // 64, at % 64, size))
            if isinstance(kind, Narrow) and kind.bits > 64:
                self.why = self.why or f"a field of {kind.bits} bits"
        else:
            self.why = self.why or f"its field `{path[-1] if path else ''}` has no kind of values"

    def word_kind(self, number: int) -> Kind:
        """The kind of a word: that of the field where it has one alone, and else the least without sign."""
        inside = [it for it in self.leaves if it.word == number]
        over = max((it.over for it in self.leaves if it.word == number - 1), default=0)
        if over or any(it.over for it in inside):
            return holding(max(8, over, max((min(64, it.shift + it.bits) for it in inside), default=0)))
        if len(inside) == 1 and inside[0].shift == 0 and inside[0].bits == whole(inside[0].kind).bits:
            return inside[0].kind
        if not inside:
            return Whole(8, False)
        return holding(max(8 if len(inside) > 1 or inside[0].kind != BOOL else 1, max(it.shift + it.bits for it in inside)))

    def field_bits(self, number: int) -> int:
        """The bits of a word that are in fields."""
        out = 0
        for it in self.leaves:
            out |= (((1 << it.bits) - 1) << it.shift) >> 64 * (number - it.word) & (1 << 64) - 1 if 0 <= number - it.word <= 1 else 0
        return out

    def names(self, name: str) -> List[str]:
        return [name] if self.count == 1 else [f"{name}_{number}" for number in range(self.count)]


def is_packed(kind: Kind) -> bool:
    """Whether a kind becomes words."""
    return isinstance(kind, Record) and kind.name not in ("ap_bit", "ap_range")
