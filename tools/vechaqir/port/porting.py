"""A port from beginning to end: what each pass makes of a program, in the order in which they build on one another."""
from typing import Dict, List, NamedTuple, Optional, Set

from .faults import Mark, Note, Refused, Unusable
from .passes import aliases, arrays, asyncs, control, divisors, effects, elements, fixed, inlining, looks, marking, names, narrow, packed_statements, polls, shortening, splitting, unrolling, upper
from .read import program as reading
from .source import expand
from .source.mapped import Mapped
from .tree.program import Program, Variable
from .tree.statements import Local
from .tree.walking import found
from .write import program as writing


class Ported(NamedTuple):
    """The ported source, what is left to change by hand, what was done, and the program itself."""

    text: str
    marks: List[Mark]
    notes: List[Note]
    program: Program


def leaves(program: Program, originals: Set[Variable], bits: Optional[int]) -> None:
    """The passes over tasks that compute."""
    for function in program.tasks:
        if not upper.is_upper(function):
            control.returns(program, function)
            effects.run(program, function)
            splitting.run(program, function)
            arrays.run(program, function)
    packed_statements.run(program)
    for function in program.tasks:
        if function.body is not None:
            function.body = splitting.cells(function.body, True)
    fixed.run(program, bits)
    narrow.run(program)
    for function in program.tasks:
        divisors.run(program, function)
    for function in program.tasks:
        if not upper.is_upper(function):
            shortening.run(program, function, originals)
            if unrolling.sums(function):
                shortening.run(program, function, originals)


def changed(program: Program, bits: Optional[int]) -> None:
    """All passes."""
    marking.unknown(program)
    aliases.run(program, False)
    asyncs.run(program)
    polls.run(program)
    looks.run(program)
    control.run(program)
    for function in [*program.helpers, *program.tasks]:
        if function.body is not None:
            function.body = aliases.lambdas(program, function.body)
    inlining.run(program)
    aliases.run(program, True)
    originals: Set[Variable] = set() if not program.tasks else {it.variable for function in program.tasks for it in found(function.body, Local) if it.variable.at >= 0 and function.at <= it.variable.at < function.end and it.variable not in program.gone}
    for function in program.tasks:
        if function.body is not None:
            function.body = aliases.without_lambdas(function.body)
    parameters: Dict[int, List[Variable]] = {id(it): list(it.parameters) for it in program.tasks}
    split = elements.Elements(program)
    upper.run(program, split, parameters)
    for function in program.tasks:
        if not upper.is_upper(function):
            unrolling.run(program, function)
            elements.run(program, split, function)
    leaves(program, originals, bits)
    names.run(program)


def expanded(path: str) -> Mapped:
    return expand.expanded(path)


def ported(path: str, top: str, bits: Optional[int] = None) -> Ported:
    """The port of a source. Raises Unusable where nothing can be ported, and Refused with a place in the expanded text, which `where` finds."""
    source = expand.expanded(path)
    try:
        program = reading.read(source, top)
        changed(program, bits)
    except Refused as why:
        raise located(source, why) from None
    return Ported(writing.written(program), program.marks, program.notes, program)


def located(source: Mapped, why: Refused) -> Unusable:
    """The sentence of a fault that ends the whole port, with its place."""
    file, line = source.place(max(0, why.at))
    return Unusable(f"{file}:{line}: {Mark(file, line, why.why, why.instead)}")
