"""Structs as words: locals and cells one variable or memory for each word, streams one stream for each word. Exact, since all operations on the words of a token are together and in one order at both ends."""
from typing import Dict, List, Optional, Sequence, Tuple

from ..faults import Refused

from ..tree.kinds import INT, Array, Carrier, Kind, Record
from ..tree.lists import spread
from ..tree.making import assign, binary, cast, choose, declare, name
from ..tree.nodes import Braces, Choose, Expression, Field, Index, Name, Node, Null, Number, Operation
from ..tree.program import Program, Variable
from ..tree.statements import Local, Statement
from ..tree.walking import placed, size
from . import words as fields
from .hoisted import Hoister
from .hoisting import is_pure
from .layout import Layout, Leaf, is_packed


def inner_kind(kind: Kind) -> Optional[Kind]:
    """The struct that a variable is, has or carries."""
    if isinstance(kind, Carrier):
        return kind.element if is_packed(kind.element) else None
    while isinstance(kind, Array):
        kind = kind.element
    return kind if is_packed(kind) else None


def with_inner(kind: Kind, inner: Kind) -> Kind:
    """The same with a word in the place of the struct."""
    if isinstance(kind, Carrier):
        return Carrier(kind.sort, inner, kind.length, kind.depth, kind.is_const)
    return Array(with_inner(kind.element, inner), kind.length) if isinstance(kind, Array) else inner


class Packer(Hoister):
    """The words of one program's structs."""

    def __init__(self, program: Program) -> None:
        super().__init__(program)
        self.layouts: Dict[Kind, Layout] = {}
        self.variables: Dict[Variable, List[Variable]] = {}

    def layout(self, kind: Kind, at: int) -> Layout:
        if kind not in self.layouts:
            self.layouts[kind] = Layout(kind)
        found_ = self.layouts[kind]
        if found_.why:
            raise Refused(at, f"the struct `{kind}`: {found_.why}", "a stream for each field")
        return found_

    def words_of(self, variable: Variable, at: int) -> List[Variable]:
        """The variables in the place of one that is, has or carries a struct."""
        if variable not in self.variables:
            inner = inner_kind(variable.kind)
            assert inner is not None
            layout = self.layout(inner, at)
            origin = variable.origin if variable.origin is not None else (variable, None, None)
            self.variables[variable] = [Variable(word, with_inner(variable.kind, kind), variable.role, variable.is_const and layout.count == 1 and not isinstance(variable.kind, Array), variable.is_reference, variable.at,
                                                 origin=(origin[0], origin[1], number if layout.count > 1 else None))
                                        for number, (word, kind) in enumerate(zip(layout.names(variable.name), layout.words))]
            if variable.at >= 0:
                self.program.note(variable.at, f"`{variable.name}` of the struct `{inner}`", "one word" if layout.count == 1 else f"{layout.count} words")
        return self.variables[variable]

    # which nodes are looked at

    def wanted(self, it: Node) -> bool:
        if isinstance(it, Field) or isinstance(it, Index) and fields.inside(it.base):
            return True
        if isinstance(it, Operation):
            return inner_kind(it.stream.kind) is not None
        return isinstance(it, Expression) and (is_packed(it.kind) or inner_kind(it.kind) is not None) or isinstance(it, Local) and inner_kind(it.variable.kind) is not None

    # expressions

    def part(self, it: Expression, before: List[Statement]) -> Optional[Expression]:
        if isinstance(it, Field) or isinstance(it, Index) and fields.inside(it.base):
            return self.read(it, before)
        if isinstance(it, Operation):
            if it.method == "eot":
                return Operation(it.kind, "eot", self.carried(it.stream, before)[0], (Null(it.kind),))
            if is_packed(it.kind):
                raise Refused(it.at, "a struct that is read in a place where it is no value", "a variable for it")
        if is_packed(it.kind):
            raise Refused(it.at, f"a struct `{it.kind}` as a value in this place", "a variable for it, and its fields")
        return None

    def read(self, it: Expression, before: List[Statement]) -> Expression:
        """A field of a struct."""
        way = fields.way(it)
        path = way.path()
        if isinstance(way.base, Braces) and path is not None:
            return self.expression(self.of_list(way.base, path, it), before)
        if isinstance(way.base, Choose):
            return self.expression(choose(way.base.test, self.onto(way.base.then, way), self.onto(way.base.other, way), it.kind), before)
        layout = self.layout(way.base.kind, it.at)
        steps = [self.expression(each, before) if isinstance(each, Expression) else each for each in way.steps]
        if path is not None and path not in layout.by_path:
            raise Refused(it.at, "a part of a struct in a place where it is no value", "a variable for it")
        if path is not None:
            leaf = layout.by_path[path]
            return placed(fields.read_of(layout, leaf, self.all_words(way.base, before)), it)
        words = self.all_words(way.base, before)
        return placed(fields.read_at(layout, self.steps_once(steps, words, before), words), it)

    def steps_once(self, steps: Sequence[object], words: Sequence[Expression], before: List[Statement]) -> List[object]:
        """Computed indices, which are used once for each word."""
        return [self.once_only(each, before, "index") if isinstance(each, Expression) and len(words) > 1 else each for each in steps]

    def onto(self, base: Expression, way: "fields.Way") -> Expression:
        """The same way from another whole."""
        made = base
        kind = base.kind
        for each in way.steps:
            if isinstance(each, str) and isinstance(kind, Record):
                member = kind.member(each)
                assert member is not None
                made, kind = Field(member.kind, made, each), member.kind
            elif isinstance(each, Expression) and isinstance(kind, Array):
                made, kind = Index(kind.element, made, each), kind.element
        return made

    def of_list(self, it: Braces, path: Sequence[object], old: Expression) -> Expression:
        value: Expression = it
        for at, step in enumerate(path):
            kind = value.kind
            if not isinstance(value, Braces):
                return self.onto(value, fields.Way(value, tuple(Number(INT, each) if isinstance(each, int) else each for each in path[at:]), old.kind))
            number = next(index for index, each in enumerate(kind.members) if each.name == step) if isinstance(kind, Record) else int(str(step))
            value = spread(value)[number]
        return value if value.kind == old.kind else cast(old.kind, value)

    def all_words(self, base: Expression, before: List[Statement]) -> List[Expression]:
        """The words of a whole of which a part is used; of a token that is read all are taken."""
        all_ = self.words(base, before)
        if isinstance(base, Operation) and base.method == "read" and len(all_) > 1:
            kept = [self.fresh(each.kind, "word") for each in all_]
            before += [declare(variable, each) for variable, each in zip(kept, all_)]
            return [name(each) for each in kept]
        return all_

    def once(self, leaf: Leaf, value: Expression, before: List[Statement]) -> Expression:
        """A value that is used once, or that may be used twice."""
        if not leaf.over or is_pure(value) and size(value) <= 3:
            return value
        kept = self.fresh(value.kind, "part")
        before.append(declare(kept, value))
        return name(kept)

    def words(self, it: Expression, before: List[Statement]) -> List[Expression]:
        """The words of an expression of a struct."""
        layout = self.layout(it.kind, it.at)
        if isinstance(it, Name):
            return [name(each) for each in self.words_of(it.variable, it.at)]
        if isinstance(it, Field) or isinstance(it, Index) and fields.inside(it.base):
            return self.part_words(it, before)
        if isinstance(it, Index):
            index = self.expression(it.index, before)
            if layout.count > 1:
                index = self.once_only(index, before, "index")
            return [Index(kind, each, index) for kind, each in zip(layout.words, self.carried(it.base, before))]
        if isinstance(it, Operation) and it.method in ("read", "peek"):
            return [placed(Operation(kind, it.method, each, it.arguments), it) for kind, each in zip(layout.words, self.carried(it.stream, before))]
        if isinstance(it, Choose) and not is_pure(it):
            kept = self.fresh(it.kind)
            before += [*(declare(each) for each in self.words_of(kept, it.at)), *self.branches(it, lambda value: [assign(name(kept), value)])]
            return self.words(name(kept), before)
        if isinstance(it, Choose):
            test = self.expression(it.test, before)
            return [choose(test, left, right, kind) for kind, left, right in zip(layout.words, self.words(it.then, before), self.words(it.other, before))]
        if isinstance(it, Braces):
            return self.packed(layout, it, before)
        raise Refused(it.at, "a struct by this expression", "a variable for it, and its fields")

    def carried(self, it: Expression, before: List[Statement]) -> List[Expression]:
        """The streams, memories or arrays of the words of one of structs."""
        if isinstance(it, Name):
            return [name(each) for each in self.words_of(it.variable, it.at)]
        if isinstance(it, Index):
            index = self.expression(it.index, before)
            return [Index(with_inner(it.kind, getattr(each.kind, "element")), each, index) for each in self.carried(it.base, before)]
        raise Refused(it.at, "a stream or an array of structs by this expression", "its name")

    def part_words(self, it: Expression, before: List[Statement]) -> List[Expression]:
        """The words of a struct within a struct."""
        way = fields.way(it)
        path = way.path()
        if path is None:
            raise Refused(it.at, "a struct within a struct by a computed index", "its fields one by one")
        if isinstance(way.base, Braces):
            return self.words(self.of_list(way.base, path, it), before)
        whole, layout = self.layout(way.base.kind, it.at), self.layout(it.kind, it.at)
        all_ = self.all_words(way.base, before)
        values = {leaf.path[len(path):]: fields.read_of(whole, leaf, all_) for leaf in whole.leaves if leaf.path[:len(path)] == path}
        return self.joined(layout, [piece for leaf in layout.leaves for piece in fields.placed_of(layout, leaf, self.once(leaf, values[leaf.path], before))])

    def packed(self, layout: Layout, it: Braces, before: List[Statement]) -> List[Expression]:
        """The words of a list of values."""
        return self.joined(layout, self.pieces(layout, it, (), before))

    def pieces(self, layout: Layout, it: Braces, path: Tuple[object, ...], before: List[Statement]) -> List[Tuple[int, Expression]]:
        out: List[Tuple[int, Expression]] = []
        values = spread(it)
        names: Sequence[object] = [each.name for each in it.kind.members] if isinstance(it.kind, Record) else range(len(values))
        values = self.sequence_of(values, before)
        for step, value in zip(names, values):
            way, at, old = (*path, step), len(before), len(out)
            if isinstance(value.kind, Array) and not isinstance(value, Braces):
                kind = value.kind
                value = Braces(kind, tuple(Index(kind.element, value, Number(INT, cell)) for cell in range(kind.length)))
            if isinstance(value, Braces):
                out += self.pieces(layout, value, way, before)
            elif is_packed(value.kind):
                inner = self.layout(value.kind, it.at)
                all_ = self.all_words(value, before)
                for leaf in inner.leaves:
                    to = layout.by_path[way + leaf.path]  # type: ignore[index]
                    out += fields.placed_of(layout, to, self.once(to, fields.read_of(inner, leaf, all_), before))
            else:
                to = layout.by_path[way]  # type: ignore[index]
                out += fields.placed_of(layout, to, self.once(to, value, before))
            out[:old] = zip([word for word, _ in out[:old]], self.settled([each for _, each in out[:old]], at, before))
        return out

    def sequence_of(self, values: Sequence[Expression], before: List[Statement]) -> List[Expression]:
        """The values of a list in their order; those that are structs are looked at later."""
        plain = [at for at, each in enumerate(values) if not isinstance(each, Braces) and not is_packed(each.kind) and not isinstance(each.kind, Array)]
        made = self.sequence([values[at] for at in plain], before)
        out = list(values)
        for at, each in zip(plain, made):
            out[at] = each
        return out

    def joined(self, layout: Layout, pieces: Sequence[Tuple[int, Expression]]) -> List[Expression]:
        """Words of what is at the places of their fields."""
        out: List[Expression] = []
        for number, kind in enumerate(layout.words):
            parts = [each for word, each in pieces if word == number and not (isinstance(each, Number) and each.value == 0)]
            parts = merged(parts)
            made: Expression = parts[0] if parts else Number(kind, 0)
            for each in parts[1:]:
                made = binary("|", made, each)
            out.append(Number(kind, made.value) if isinstance(made, Number) and not parts[1:] else made)
        return out


def merged(parts: List[Expression]) -> List[Expression]:
    """Parts of a word with their constants as one."""
    known = [each for each in parts if isinstance(each, Number)]
    if len(known) < 2:
        return parts
    total = 0
    for each in known:
        total |= int(each.value)
    return [*(each for each in parts if not isinstance(each, Number)), Number(known[0].kind, total)]
