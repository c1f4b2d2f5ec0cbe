"""Sources made at random that are about as deep, or have expressions about as long, as the grammar's limits let them be."""
import json
import random
from typing import List, Tuple

from runner.trial import read

LEVELS, OPERATORS = 64, 1000
# Where an expression may stand, with how many levels are open there (`@` is the expression); what opens one level in an expression, and what closes it; what opens a level for the
# statement behind it, and what may stand behind that; statements; what an expression may stand in that becomes one operator longer by it; and members of expressions.
SLOTS, OPENERS, STATEMENTS, ENDS, ONE_MORE, MEMBERS = json.loads(read("tests/cases/files/nests.json")).values()
SIGNS = "+ - * / % & | ^ << >> == != < <= > >= && ||".split()


def wrapped(some: random.Random, openers: List[Tuple[str, str]], count: int, inside: str) -> str:
    """A text in so many openers; the closing ones of some are left out."""
    chosen = [some.choice(openers) for _ in range(count)]
    return "".join(first for first, _ in chosen) + inside + "".join(last for _, last in reversed(chosen))


def deep(some: random.Random) -> str:
    """A nest about as deep as the limit."""
    levels = LEVELS + some.randint(-3, 3)
    openers = some.sample(OPENERS, some.randint(1, len(OPENERS)))
    if some.random() < 0.4:
        slot, open_ones = some.choice(SLOTS)
        return slot.replace("@", wrapped(some, openers, levels - open_ones, some.choice(["", "1 + ", "x * "]) + some.choice(MEMBERS)))
    statements = some.sample(STATEMENTS, some.randint(1, len(STATEMENTS)))
    if some.random() < 0.5:
        return "void F() { " + wrapped(some, statements, levels - 1, some.choice(ENDS)) + " }"
    split = some.randint(1, levels - 2)
    value = "x = " + wrapped(some, openers, levels - split - 1, some.choice(MEMBERS)) + ";"
    return "void F() { " + wrapped(some, statements, split, value) + " }"


def long(some: random.Random) -> str:
    """An expression about as long as the limit, of several parts: some with prefix operators, in parentheses, in an index or as arguments of a call."""
    count = OPERATORS + some.randint(-3, 3)
    slot, _ = some.choice(SLOTS)
    signs = some.sample(SIGNS, some.randint(1, 4)) if "<< @" not in slot else ["+", "-", "*"]
    parts, left = [], count
    while left > 0:
        # a part of so many operators, and one more before it where it is not the first
        operators = min(some.randint(1, 400), left)
        chain = some.choice(MEMBERS) + "".join(f" {some.choice(signs)} {some.choice(MEMBERS)}" for _ in range(operators - 1))
        before, after = some.choice(ONE_MORE)
        parts.append(before + chain + after)
        left -= operators + (len(parts) > 1)
    return slot.replace("@", f" {some.choice(signs)} ".join(parts))
