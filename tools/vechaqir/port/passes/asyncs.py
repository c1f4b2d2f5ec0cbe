"""Operations on the channels of an `async_mmap` as accesses of a memory: bursts, and single requests with what takes their answer. All others are marked."""
from typing import List, Optional, Sequence

from ..faults import Refused
from ..tree.kinds import Carrier

from ..tree.program import Program
from ..tree.statements import Block, Declare, Evaluate, For, If, Statement, While
from ..tree.walking import dressed, replaced, rewritten, statements
from .bursts import INSTEAD, Burst, loaded, stored, use_of, uses
from .marking import marked


def in_turn(it: Block, program: Program) -> Optional[Block]:
    """A request and right after it what takes the answer; an address, its value and what takes the answer of the store."""
    parts = list(it.parts)
    out: List[Statement] = []
    at = 0
    while at < len(parts):
        part = parts[at]
        found_ = use_of(part.expression) if isinstance(part, Evaluate) else None
        behind = parts[at + 1] if at + 1 < len(parts) else None
        if found_ is not None and found_.channel == "read_addr" and found_.operation.method == "write" and isinstance(behind, (Declare, Evaluate)):
            taken = [each for each in uses(behind) if each.memory is found_.memory]
            if len(taken) == 1 and taken[0].channel == "read_data" and taken[0].operation.method == "read":
                address = found_.operation.arguments[0]
                memory = found_.memory
                out += dressed([rewritten(behind, lambda node: loaded(node, {memory: address}))], part)
                program.note(part.at, "a request and its answer", "an access of a memory")
                at += 2
                continue
        if found_ is not None and found_.channel in ("write_addr", "write_data") and at + 2 < len(parts):
            trio = [it for part in parts[at:at + 3] if isinstance(part, Evaluate) for it in [use_of(part.expression)] if it is not None and it.memory is found_.memory]
            if [each.channel for each in trio[2:]] == ["write_resp"] and {each.channel for each in trio} == {"write_addr", "write_data", "write_resp"}:
                out += dressed(stored(parts[at:at + 2], None), part)
                at += 3
                continue
        out.append(part)
        at += 1
    return replaced(it, parts=tuple(out)) if len(out) != len(parts) else None


def run(program: Program) -> None:
    for function in [*program.helpers, *program.tasks]:
        body = function.body
        if body is None or not uses(body):
            continue
        function.body = statements(rewritten(body, lambda it: in_turn(it, program) if isinstance(it, Block) else None), lambda it: None)
        assert function.body is not None
        function.body = with_bursts(program, function.body)
        left = uses(function.body)
        if left:
            function.body = statements(function.body, lambda part: marked_use(program, part))
    for function in [*program.helpers, *program.tasks]:
        for parameter in function.parameters:
            kind = parameter.kind
            if isinstance(kind, Carrier) and kind.sort in ("async_mmap", "async_mmaps"):
                parameter.kind = Carrier(kind.sort[6:], kind.element, kind.length, kind.depth, kind.is_const)
                parameter.is_reference = False


def with_bursts(program: Program, body: Block) -> Block:
    """A body with its innermost loops over channels replaced."""
    def one(it: Block) -> Block:
        out: List[Statement] = []
        for part in it.parts:
            inner = getattr(part, "body", None)
            if isinstance(part, (For, While)) and uses(part):
                try:
                    out += dressed(Burst(program, part, out).made(), part)
                except Refused as why:
                    nested = one(part.body)
                    out.append(replaced(part, body=nested) if nested is not part.body and not uses(nested) else marked(program, part, why))
            elif isinstance(inner, Block) and uses(inner):
                out.append(replaced(part, body=one(inner)))
            elif isinstance(part, If) and uses(part):
                out.append(replaced(part, then=one(part.then), other=one(part.other) if part.other is not None else None))
            elif isinstance(part, Block) and uses(part):
                out.append(one(part))
            else:
                out.append(part)
        return replaced(it, parts=tuple(out))
    return one(body)


def marked_use(program: Program, part: Statement) -> Optional[Sequence[Statement]]:
    """A mark for an operation on a channel that is left."""
    found_ = uses(part) if isinstance(part, (Evaluate, Declare)) else uses(part.test) if isinstance(part, (If, While)) else []
    if not found_:
        return None
    it = found_[0]
    return [marked(program, part, Refused(it.operation.at, f"`{it.channel}` of `{it.memory.name}` outside of a burst", INSTEAD))]

