"""Statements with structs: declarations, assignments, operations on streams, and invokes, each word by word."""
from typing import List, Optional, Sequence

from ..faults import Refused

from ..tree.kinds import INT, Array, Carrier, Record
from ..tree.lists import is_zero
from ..tree.making import assign, binary, cast, declare, name
from ..tree.nodes import Assign, Bit, Braces, Choose, Expression, Field, Index, Name, Number, Operation, Step
from ..tree.program import Function, Program, Variable
from ..tree.statements import Chain, Declare, Evaluate, For, Invoke, Statement
from ..tree.walking import found, has, replaced, root, used
from . import words as fields
from .hoisting import is_pure
from .layout import is_packed

from .packing import Packer, inner_kind


class Words(Packer):
    """Statements of one program."""

    def changed(self, it: Statement) -> List[Statement]:
        if isinstance(it, Chain):
            return [replaced(it, invokes=tuple(self.invoke(each) for each in it.invokes))]
        return super().changed(it)

    def invoke(self, it: Invoke) -> Invoke:
        if not any(inner_kind(each.kind) is not None for each in it.arguments):
            return it
        given: List[Expression] = []
        for each in it.arguments:
            try:
                if is_packed(each.kind):
                    raise Refused(each.at, "a struct as an argument of a task", "a scalar for each field")
                given += self.carried(each, []) if inner_kind(each.kind) is not None else [each]
            except Refused as why:
                self.program.mark(why.at, why.why, why.instead)
                given.append(each)
        return replaced(it, arguments=tuple(given))

    def parameter(self, it: Variable, function: Function) -> List[Variable]:
        """What a parameter becomes; one that cannot be ported stays, with a mark."""
        try:
            if is_packed(it.kind):
                raise Refused(it.at, f"the parameter `{it.name}` of `{function.name}` is a struct", "a scalar for each field")
            return [it] if inner_kind(it.kind) is None else self.words_of(it, it.at)
        except Refused as why:
            self.program.mark(why.at, why.why, why.instead)
            return [it]

    def declaration(self, it: Declare) -> List[Statement]:
        out: List[Statement] = []
        for local in it.locals:
            if inner_kind(local.variable.kind) is None:
                out += super().declaration(replaced(it, locals=(local,))) if self.has(local) else [replaced(it, locals=(local,))]
                continue
            before: List[Statement] = []
            made = self.words_of(local.variable, it.at)
            if isinstance(local.variable.kind, (Array, Carrier)) or local.first is None:
                news = [declare(each) for each in made]
            elif isinstance(local.first, Choose) and not is_pure(local.first):
                news = [declare(each) for each in made]
                out += [*self.at_place(news, it), *self.branches(local.first, lambda value: [assign(name(local.variable), value)])]
                continue
            else:
                first = local.first
                is_empty = isinstance(first, Braces) and not first.values and is_zero(first)
                news = [declare(each, None if is_empty else value) for each, value in zip(made, self.words(first, before))]
            out += [*before, *self.at_place(news, it)]
        return out if len(out) > 1 or not isinstance(out[0], Declare) else [replaced(out[0], text=None)]

    def at_place(self, parts: Sequence[Statement], it: Statement) -> List[Statement]:
        for each in parts:
            each.at = it.at
            if isinstance(each, Declare):
                for local in each.locals:
                    local.at = it.at
        return list(parts)

    def evaluated(self, it: Evaluate) -> List[Statement]:
        inner = it.expression
        before: List[Statement] = []
        if isinstance(inner, (Assign, Step)):
            made = self.assignment(inner, before)
            if made is not None:
                return [*before, *made]
        if isinstance(inner, Operation) and inner_kind(inner.stream.kind) is not None:
            return self.operation(inner)
        return super().evaluated(it)

    def assignment(self, it: Expression, before: List[Statement]) -> Optional[List[Statement]]:
        """An assignment to a struct, to a part of one, or to a field."""
        assert isinstance(it, (Assign, Step))
        target = it.target
        if isinstance(target, Bit) and self.has(target.base):   # bits of a field: of a copy, which becomes the field
            if has(target.base, Operation):
                raise Refused(it.at, "bits of a field whose index is read", "a variable for the index")
            kept = self.fresh(target.base.kind, "bits")
            value = self.evaluated(Evaluate(replaced(it, target=replaced(target, base=name(kept)))))
            return [declare(kept, self.expression(target.base, before)), *value, *self.evaluated(assign(target.base, name(kept)))]
        if is_packed(target.kind):
            assert isinstance(it, Assign)
            if isinstance(it.value, Choose) and not is_pure(it.value):
                return self.branches(it.value, lambda value: [assign(target, value)])
            if isinstance(target, Field) or isinstance(target, Index) and fields.inside(target.base):
                return self.part_assigned(target, it.value, before)
            return self.whole_assigned(target, it.value, before)
        if isinstance(target, Field) or isinstance(target, Index) and fields.inside(target.base):
            return self.field_assigned(it, target, before)
        return None

    def whole_assigned(self, target: Expression, value: Expression, before: List[Statement]) -> List[Statement]:
        values = self.words(value, before)
        at = len(before)
        places = self.places(target, before)
        return self.in_order(places, self.settled(values, at, before), before)

    def places(self, it: Expression, before: List[Statement]) -> List[Expression]:
        """The words of what is assigned; an index that needs one of them is kept before the first of them changes."""
        words = self.words(it, before)
        index = words[0].index if isinstance(words[0], Index) else None
        if index is None or len(words) == 1 or not used(index) & {root(each) for each in words}:
            return words
        before.append(declare(kept := self.fresh(index.kind, "index"), index))
        return [replaced(each, index=name(kept)) for each in words]

    def in_order(self, places: Sequence[Expression], values: Sequence[Expression], before: List[Statement]) -> List[Statement]:
        """Word by word; a value that needs a word which is assigned before it is kept first, and where one is, all others with operations."""
        out: List[Statement] = []
        done = [root(place) for place in places]
        late = [bool(used(value).intersection(done[:at])) for at, value in enumerate(values)]
        for place, value, is_late in zip(places, values, late):
            if is_late or any(late) and has(value, Operation):
                kept = self.fresh(value.kind, "word")
                before.append(declare(kept, value))
                value = name(kept)
            if not (isinstance(place, Name) and isinstance(value, Name) and value.variable is place.variable):
                out.append(assign(place, value))
        return out

    def field_assigned(self, it: Expression, target: Expression, before: List[Statement]) -> List[Statement]:
        """A field: the word that has it, anew."""
        assert isinstance(it, (Assign, Step))
        way = fields.way(target)
        layout = self.layout(way.base.kind, it.at)
        value = self.expression(it.value, before) if isinstance(it, Assign) else Number(INT, 1)
        path, at = way.path(), len(before)
        steps = [self.expression(each, before) if isinstance(each, Expression) else each for each in way.steps]
        words = self.places(way.base, before)
        steps = self.steps_once(steps, words, before)
        value = self.settled([value], at, before)[0]
        sign = it.sign[:-1] if isinstance(it, Assign) else it.sign[0]
        if sign:
            old = fields.read_of(layout, layout.by_path[path], words) if path is not None else fields.read_at(layout, steps, words)
            value = cast(target.kind, binary(sign, old, value)) if not isinstance(target.kind, Record) else value
        if path is not None:
            leaf = layout.by_path[path]
            parts = fields.written_of(layout, leaf, words, self.once(leaf, value, before))
            return self.in_order([words[at] for at, _ in parts], [new for _, new in parts], before)
        return self.in_order(words, fields.write_at(layout, steps, words, self.once_only(value, before) if len(words) > 1 else value), before)

    def part_assigned(self, target: Expression, value: Expression, before: List[Statement]) -> List[Statement]:
        """A struct within a struct: field by field, those of one word at once."""
        way = fields.way(target)
        path = way.path()
        if path is None:
            raise Refused(target.at, "a struct within a struct by a computed index", "its fields one by one")
        whole, part = self.layout(way.base.kind, target.at), self.layout(target.kind, target.at)
        values = self.words(value, before)
        start = len(before)
        places = self.places(way.base, before)
        values = self.settled(values, start, before)
        new = list(places)
        for leaf in whole.leaves:
            if leaf.path[:len(path)] == path:
                inner = part.by_path[leaf.path[len(path):]]
                for at, word in fields.written_of(whole, leaf, new, self.once(leaf, fields.read_of(part, inner, values), before)):
                    new[at] = word
        changed = [at for at in range(len(places)) if new[at] is not places[at]]
        return self.in_order([places[at] for at in changed], [new[at] for at in changed], before)

    def operation(self, it: Operation) -> List[Statement]:
        """An operation on a stream of structs, as a statement."""
        before: List[Statement] = []
        streams = self.carried(it.stream, before)
        if it.method in ("write", "<<"):
            out: List[Statement] = []
            for value in it.arguments:
                if isinstance(value, Choose) and not is_pure(value):
                    out += self.branches(value, lambda one: [Evaluate(Operation(it.kind, "write", it.stream, (one,)))])
                    continue
                all_ = self.words(value, before)
                if len(all_) > 1 and any(each.method == "read" for word in all_ for each in found(word, Operation)):
                    kept = [self.fresh(each.kind, "word") for each in all_]
                    before += [declare(variable, each) for variable, each in zip(kept, all_)]
                    all_ = [name(each) for each in kept]
                out += [*before, *(Evaluate(Operation(it.kind, "write", stream, (each,))) for stream, each in zip(streams, all_))]
                before = []
            return out
        if it.method == ">>":
            return [part for place in it.arguments for part in self.evaluated(Evaluate(Assign(place.kind, "=", place, Operation(place.kind, "read", it.stream))))]
        if it.method == "eot":
            return [*before, Evaluate(replaced(it, stream=streams[0]))]
        return [*before, *(Evaluate(Operation(each.kind if it.method in ("read", "peek") else it.kind, it.method, each, it.arguments)) for each in streams)]

    def for_(self, it: For) -> List[Statement]:
        """A step that assigns a field of one word stays in the head."""
        if isinstance(it.step, (Assign, Step)) and self.has(it.step):
            before: List[Statement] = []
            made = self.assignment(it.step, before)
            if made is not None and len(made) == 1 and not before and isinstance(made[0], Evaluate):
                it = replaced(it, step=made[0].expression)
                self.known[id(it.step)] = False
                self.kept_alive.append(it.step)  # type: ignore[arg-type]
        return super().for_(it)


def run(program: Program) -> None:
    packer = Words(program)
    for function in program.tasks:
        function.parameters = [new for it in function.parameters for new in packer.parameter(it, function)]
        if function.body is not None:
            function.body = packer.block(function.body)
            packer.known.clear()
