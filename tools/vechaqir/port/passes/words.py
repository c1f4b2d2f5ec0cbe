"""Fields of packed structs: read by a shift and a conversion, written by a mask; by a computed index a choice of words and a shift."""
from typing import List, NamedTuple, Optional, Sequence, Tuple

from ..faults import Refused
from ..tree.folding import constant
from ..tree.kinds import BOOL, INT, UINT64, Array, Floating, Kind, Narrow, Record, Whole
from ..tree.making import binary, cast, choose, number
from ..tree.nodes import Bits, Expression, Field, Index, Number
from .layout import Layout, Leaf, Path, bits_of, whole


def unsigned(bits: int) -> Whole:
    return Whole(bits, False)


def read(layout: Layout, leaf: Leaf, word: Expression) -> Expression:
    """A field of a word."""
    kind = layout.words[leaf.word]
    if kind == leaf.kind:
        return word
    size = whole(kind).bits
    own = whole(leaf.kind)
    shifted = binary(">>", word, number(leaf.shift)) if leaf.shift else word
    if leaf.bits < own.bits and leaf.kind != BOOL:   # a bit field
        made = bit_field(word, leaf, size, own)
    elif own.bits == 1:
        made = cast(BOOL, binary("&", shifted, number(1))) if leaf.shift + 8 < size or not leaf.shift else cast(BOOL, shifted)
    else:
        made = cast(own, shifted)
    return made if own == leaf.kind else as_kind(made, leaf.kind)


def bit_field(word: Expression, leaf: Leaf, size: int, own: Whole) -> Expression:
    """The bits of a bit field, with its sign."""
    if not own.is_signed:
        shifted = binary(">>", word, number(leaf.shift)) if leaf.shift else word
        return cast(own, binary("&", shifted, Number(unsigned(max(32, size)), (1 << leaf.bits) - 1)))
    wide = Whole(max(32, size), True)
    up = wide.bits - leaf.shift - leaf.bits
    return cast(own, binary(">>", cast(wide, binary("<<", cast(unsigned(wide.bits), word), number(up))), number(wide.bits - leaf.bits)))


def as_kind(it: Expression, kind: Kind) -> Expression:
    """The bits of a whole number as a float, or as a number of some width."""
    made = Bits(kind, it)
    made.at = it.at
    return made


def as_whole(it: Expression, kind: Kind) -> Expression:
    """A value of a field's kind as a whole number: the bits of a float."""
    if isinstance(kind, (Floating, Narrow)):
        own = whole(kind)
        return Bits(own, it if it.kind == kind else cast(kind, it))
    return it


def placed(layout: Layout, leaf: Leaf, value: Expression) -> Expression:
    """A value at the place of a field in its word, with 0 elsewhere."""
    size = whole(layout.words[leaf.word]).bits
    own = whole(leaf.kind)
    it = as_whole(value, leaf.kind)
    known = constant(it)
    if known is not None:
        return Number(unsigned(size), own.wrapped(known) % (1 << leaf.bits) << leaf.shift)
    is_last = leaf.shift + leaf.bits == size
    if own.bits == 1:
        it = cast(BOOL, it)
    elif leaf.bits < own.bits:
        it = binary("&", cast(unsigned(own.bits), it), Number(unsigned(max(32, own.bits)), (1 << leaf.bits) - 1))
    elif not is_last or not isinstance(it.kind, Whole) or it.kind.bits != own.bits:
        it = cast(unsigned(own.bits), it)
    wide = it if isinstance(it.kind, Whole) and it.kind.bits == size and leaf.shift == 0 else cast(unsigned(size), it)
    return binary("<<", wide, number(leaf.shift)) if leaf.shift else wide


def mask(layout: Layout, leaf: Leaf) -> Number:
    """All bits of a word but those of a field."""
    size = whole(layout.words[leaf.word]).bits
    kept = (1 << size) - 1 & ~(((1 << leaf.bits) - 1) << leaf.shift)
    return Number(unsigned(max(32, size)), kept)


def written(layout: Layout, leaf: Leaf, word: Expression, value: Expression) -> Expression:
    """A word with a field anew."""
    if layout.words[leaf.word] == leaf.kind:
        return value
    new = placed(layout, leaf, value)
    kept = binary("&", word, mask(layout, leaf))
    return kept if isinstance(new, Number) and new.value == 0 else binary("|", kept, new)


def read_of(layout: Layout, leaf: Leaf, words: Sequence[Expression]) -> Expression:
    """A field of the words of a struct; of a packed one it may begin in one word and end in the next."""
    if not leaf.over:
        return read(layout, leaf, words[leaf.word])
    low = binary(">>", cast(UINT64, words[leaf.word]), number(leaf.shift))
    both = binary("|", low, binary("<<", cast(UINT64, words[leaf.word + 1]), number(64 - leaf.shift)))
    own = whole(leaf.kind)
    made = bit_field(both, leaf._replace(shift=0), 64, own) if leaf.bits < own.bits else cast(own, both)
    return made if own == leaf.kind else as_kind(made, leaf.kind)


def halves(layout: Layout, leaf: Leaf, value: Expression) -> List[Tuple[int, Expression]]:
    """A value at the place of a field that is in two words."""
    own = whole(leaf.kind)
    it = cast(UINT64, cast(unsigned(own.bits), as_whole(value, leaf.kind)))
    if leaf.bits < own.bits:
        it = binary("&", it, Number(UINT64, (1 << leaf.bits) - 1))
    return [(leaf.word, binary("<<", it, number(leaf.shift))), (leaf.word + 1, cast(layout.words[leaf.word + 1], binary(">>", it, number(64 - leaf.shift))))]


def placed_of(layout: Layout, leaf: Leaf, value: Expression) -> List[Tuple[int, Expression]]:
    """A value at the place of a field, in the word or the two words that have it."""
    return halves(layout, leaf, value) if leaf.over else [(leaf.word, placed(layout, leaf, value))]


def written_of(layout: Layout, leaf: Leaf, words: Sequence[Expression], value: Expression) -> List[Tuple[int, Expression]]:
    """The words that have a field, with the field anew."""
    if not leaf.over:
        return [(leaf.word, written(layout, leaf, words[leaf.word], value))]
    kept = ((1 << leaf.shift) - 1, (1 << whole(layout.words[leaf.word + 1]).bits) - 1 & ~((1 << leaf.over) - 1))
    return [(at, binary("|", binary("&", words[at], Number(unsigned(max(32, whole(layout.words[at]).bits)), mine)), new)) for mine, (at, new) in zip(kept, halves(layout, leaf, value))]


class Way(NamedTuple):
    """The way to a field or a part: the whole, the steps from there, of which some may be computed, and the kind of the part."""

    base: Expression
    steps: Tuple[object, ...]
    kind: Kind

    def path(self) -> Optional[Path]:
        """The steps, where all are known."""
        out: List[object] = []
        for it in self.steps:
            known = constant(it) if isinstance(it, Expression) else None
            if isinstance(it, Expression) and known is None:
                return None
            out.append(it if known is None else known)
        return tuple(out)  # type: ignore[arg-type]


def way(it: Expression) -> Way:
    """From a field outwards to the whole struct."""
    steps: List[object] = []
    kind = it.kind
    while isinstance(it, Field) or isinstance(it, Index) and inside(it.base):
        if isinstance(it, Field):
            steps.insert(0, it.name)
            it = it.base
        else:
            assert isinstance(it, Index)
            steps.insert(0, it.index)
            it = it.base
    return Way(it, tuple(steps), kind)


def inside(it: Expression) -> bool:
    """Whether an array is a part of a struct."""
    while isinstance(it, Index) and isinstance(it.base.kind, Array):
        it = it.base
    return isinstance(it, Field)


def position(layout: Layout, steps: Sequence[object]) -> Tuple[Expression, Leaf]:
    """The number of the first bit of a field with computed indices, and a field of the same kind."""
    kind: Kind = layout.kind
    at = 0
    made: Optional[Expression] = None
    path: List[object] = []
    for it in steps:
        if isinstance(kind, Record) and isinstance(it, str):
            member = kind.member(it)
            assert member is not None
            at, kind = at + member.offset, member.kind
            path.append(it)
            continue
        assert isinstance(kind, Array) and isinstance(it, Expression)
        stride = bits_of(kind.element)
        known = constant(it)
        if known is not None:
            at += known * stride
        else:
            part = binary("<<", cast(INT, it), number(stride.bit_length() - 1)) if stride & (stride - 1) == 0 else binary("*", cast(INT, it), number(stride))
            made = part if made is None else binary("+", made, part)
        kind = kind.element
        path.append(0)
    leaf = layout.by_path[tuple(path)]  # type: ignore[arg-type]
    if any(each.over for each in layout.leaves):
        raise Refused(-1, f"a computed index within `{layout.kind}`, of which a field is in two words", "a struct that is not packed, or its fields one by one")
    whole_position = number(at) if made is None else made if not at else binary("+", made, number(at))
    return whole_position, leaf


def read_at(layout: Layout, steps: Sequence[object], words: Sequence[Expression]) -> Expression:
    """A field by a computed index: the word that has it, and a shift."""
    at, leaf = position(layout, steps)
    chosen: Expression = words[-1]
    if len(words) > 1:
        which = binary(">>", at, number(6))
        kind = UINT64
        chosen = cast(kind, words[-1])
        for number_ in range(len(words) - 2, -1, -1):
            chosen = choose(binary("==", which, number(number_)), cast(kind, words[number_]), chosen, kind)
        at = binary("&", at, number(63))
    elif isinstance(chosen.kind, Whole) and chosen.kind.is_signed:
        chosen = cast(unsigned(chosen.kind.bits), chosen)
    own = whole(leaf.kind)
    shifted = binary(">>", chosen, at)
    made = cast(BOOL, binary("&", shifted, number(1))) if own.bits == 1 else cast(own, shifted)
    return made if own == leaf.kind else as_kind(made, leaf.kind)


def write_at(layout: Layout, steps: Sequence[object], words: Sequence[Expression], value: Expression) -> List[Expression]:
    """The words with a field by a computed index anew: the one that has it, and the others as they are."""
    at, leaf = position(layout, steps)
    own = whole(leaf.kind)
    it = as_whole(value, leaf.kind)
    it = cast(BOOL, it) if own.bits == 1 else cast(unsigned(own.bits), it)
    size = max(8, own.bits)
    out: List[Expression] = []
    shift = at if len(words) == 1 else binary("&", at, number(63))
    for number_, word in enumerate(words):
        kind = whole(layout.words[number_])
        wide = unsigned(max(32, kind.bits))
        hole = binary("<<", Number(wide, (1 << size) - 1), shift)
        from ..tree.nodes import Unary
        kept = binary("&", word, Unary(wide, "~", hole))
        new = binary("|", kept, binary("<<", cast(wide, it), shift))
        if len(words) == 1:
            out.append(new)
        else:
            out.append(choose(binary("==", binary(">>", at, number(6)), number(number_)), cast(kind, new), word, kind))
    return out
