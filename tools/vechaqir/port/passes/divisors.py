"""Divisors: a local constant of a known value becomes its number, since the language divides by constants of the file alone; another divisor is marked."""
from typing import Dict, List, Optional, Sequence

from ..faults import Refused
from ..tree.folding import constant
from ..tree.kinds import Whole
from ..tree.making import number
from ..tree.nodes import Assign, Binary, Expression, Node
from ..tree.program import Function, Program, Variable
from ..tree.statements import Block, Local, Statement
from ..tree.walking import children, found, replaced, rewritten, statements, substituted, used, walk
from .marking import marked

INSTEAD = "a shift, a product with the inverse, or a task that divides step by step"


def known_locals(body: Block) -> Dict[Variable, Expression]:
    """The constants among the locals, with their values."""
    out: Dict[Variable, Expression] = {}
    for it in found(body, Local):
        if it.variable.is_const and isinstance(it.variable.kind, Whole) and it.first is not None:
            value = constant(substituted(it.first, dict(out)))
            if value is not None:
                out[it.variable] = number(value, it.variable.kind)
    return out


def divisor(it: Node) -> Optional[Expression]:
    """What an expression divides by."""
    if isinstance(it, Binary) and it.sign in ("/", "%"):
        return it.right
    return it.value if isinstance(it, Assign) and it.sign in ("/=", "%=") else None


def run(program: Program, function: Function) -> None:
    body = function.body
    if body is None or not any(divisor(it) is not None for it in walk(body)):
        return
    known = known_locals(body)

    def change(it: Node) -> Optional[Node]:
        right = divisor(it)
        if right is None or constant(right) is not None or not used(right) & set(known):
            return None
        new = substituted(right, known)
        return replaced(it, right=new) if isinstance(it, Binary) else replaced(it, value=new)
    made: Block = rewritten(body, change)

    def bad(it: Statement) -> Optional[Sequence[Statement]]:
        inner = [each for each in children(it) if not isinstance(each, Block)]
        for node in (each for part in inner for each in outside(part)):
            right = divisor(node)
            if right is not None and isinstance(right.kind, Whole) and not constant(right):
                why = "a division by 0" if constant(right) == 0 else "a divisor that is no constant"
                return [marked(program, it, Refused(node.at if node.at >= 0 else it.at, why, INSTEAD))]
        return None
    function.body = statements(made, bad)


def outside(it: Node) -> List[Node]:
    """The nodes of a part of a statement without those of blocks."""
    return [it, *(each for part in children(it) if not isinstance(part, Block) for each in outside(part))]
