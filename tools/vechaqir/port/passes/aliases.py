"""References among the locals: the name stands for the place itself, whose indices are kept where they change afterwards. Lambdas, whose bodies are where they are called, go."""
from typing import List, Optional, Sequence, Set

from ..faults import Refused
from ..tree.kinds import LAMBDA
from ..tree.making import declare, name
from ..tree.nodes import Call, Expression, Lambda
from ..tree.program import Program, Variable
from ..tree.statements import Block, Declare, Empty, Local, Statement
from ..tree.walking import assigned, declared, has, mapped, replaced, substituted, used
from .binding import IN_ARMS, ONE_OF, is_one_of, is_place
from .hoisting import indices, is_pure, with_indices
from .marking import marked


class Aliases:
    """The blocks of one program."""

    def __init__(self, program: Program, is_last: bool) -> None:
        self.program, self.is_last = program, is_last

    def block(self, it: Block) -> Block:
        """A block whose references are replaced, the inner blocks after it."""
        parts: List[Statement] = list(it.parts)
        out: List[Statement] = []
        while parts:
            part = parts.pop(0)
            alias = self.alias(part)
            if alias is None:
                out.append(part)
                continue
            try:
                out += self.kept(part, parts)
                place = self.place(alias, out, parts)
                parts = [substituted(each, {alias.variable: place}) for each in parts]
            except Refused as why:
                out.append(marked(self.program, part, why))
        made = it if len(out) == len(it.parts) and all(a is b for a, b in zip(out, it.parts)) else replaced(it, parts=tuple(out))
        return mapped(made, self.inner)

    def inner(self, it: object) -> "Statement":
        assert isinstance(it, Statement)
        return self.block(it) if isinstance(it, Block) else mapped(it, lambda each: self.block(each) if isinstance(each, Block) else each)

    def kept(self, part: Statement, rest: List[Statement]) -> List[Statement]:
        """The other variables of the same declaration."""
        del rest
        assert isinstance(part, Declare)
        others = tuple(each for each in part.locals if not each.variable.is_reference)
        return [replaced(part, locals=others)] if others else []

    def alias(self, part: Statement) -> Optional[Local]:
        if not isinstance(part, Declare):
            return None
        found_ = [each for each in part.locals if each.variable.is_reference and each.first is not None and (self.is_last or not has(each.first, Call))]
        return found_[0] if found_ else None

    def place(self, local: Local, out: List[Statement], rest: Sequence[Statement]) -> Expression:
        """What a reference stands for."""
        first = local.first
        assert first is not None
        changed = assigned(*rest)
        if is_one_of(first) and first.kind == local.variable.kind and (used(first) | {local.variable}) & changed:
            raise Refused(local.at, ONE_OF, IN_ARMS)
        if not is_place(first) or first.kind != local.variable.kind:
            new = Variable(local.variable.name, local.variable.kind, "local", local.variable.is_const, at=local.variable.at)
            made = declare(new, first)
            made.at = local.at
            out.append(made)
            return name(new)
        self.program.note(local.at, f"the reference `{local.variable.name}`", "what it refers to")
        found_: List[Expression] = []
        for each in indices(first):
            if used(each) & changed or not is_pure(each):
                kept = Variable("index", each.kind)
                out.append(declare(kept, each))
                each = name(kept)
            found_.append(each)
        return with_indices(first, found_)


def copied(it: Lambda) -> Set[Variable]:
    """The variables of which a lambda has copies."""
    own = {*it.function.parameters, *declared(it.function.body)}
    return set(it.copies) if it.references is None else used(it.function.body) - own - set(it.references)


def lambdas(program: Program, it: Block) -> Block:
    """Marks a lambda that has copies of variables which change after it."""
    def one(block: Block) -> Block:
        parts: List[Statement] = []
        for at, part in enumerate(block.parts):
            made = next((each.first for each in (part.locals if isinstance(part, Declare) else ()) if isinstance(each.first, Lambda)), None)
            if made is not None and isinstance(made, Lambda) and copied(made) & assigned(made.function.body, *block.parts[at + 1:]):
                parts.append(marked(program, part, Refused(part.at, "a lambda with a copy of a variable that changes", "`[&]`, or the copy as a parameter")))
                continue
            parts.append(mapped(part, lambda each: one(each) if isinstance(each, Block) else each) if not isinstance(part, Block) else one(part))
        return block if all(a is b for a, b in zip(parts, block.parts)) else replaced(block, parts=tuple(parts))
    return one(it)


def without_lambdas(it: Block) -> Block:
    from ..tree.walking import statements

    def change(part: Statement) -> Optional[Sequence[Statement]]:
        if isinstance(part, Declare) and any(each.variable.kind == LAMBDA for each in part.locals):
            kept = tuple(each for each in part.locals if each.variable.kind != LAMBDA)
            return [replaced(part, locals=kept)] if kept else [Empty()] if part.before else []
        return None
    made: Block = statements(it, change)
    return made


def run(program: Program, is_last: bool) -> None:
    """References in all functions; those to what a call returns once its body is in its place."""
    aliases = Aliases(program, is_last)
    for function in [*program.helpers, *program.tasks]:
        if function.body is not None:
            function.body = aliases.block(function.body)
