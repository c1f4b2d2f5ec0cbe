"""The constructs of C++, TAPA and Vitis HLS that the language has not, each with the patterns by which it is found. What to write instead stands in the row of
docs/FROM_TAPA.md of the same construct."""
from typing import Callable, Dict, Iterator, List, NamedTuple, Optional, Tuple

from .. import tables
from .elements import use_at
from .lexemes import RESERVED
from .matching import SORTS, View, compiled, matches


class Pattern(NamedTuple):
    """A construct: its name in docs/FROM_TAPA.md, the codes with which it is refused, the regions in which it stands (none for all), what else must hold, and its patterns."""

    construct: str
    codes: List[str]
    regions: List[str]
    tests: List[List[str]]
    patterns: List[str]


def is_in_expression(view: View, at: int) -> bool:
    """A comma in the head of a `for` that parts no declared variables, or in a parenthesis of an expression."""
    bracket = view.enclosing(at)
    if bracket is None or view.text(bracket) != "(":
        return False
    before = view.text(bracket - 1)
    if before == "for":
        first = next((it for it in range(bracket, at + 1) if view.text(it) == ";"), at)
        return first < at or view.text(bracket + 1) not in RESERVED
    return view.kind(bracket - 1) == "sign" and before not in (">", ")", "]") or before == "return"


def has_chain_before(view: View, at: int) -> bool:
    """Whether the body around a lexeme has a chain before it."""
    body = view.enclosing(at)
    return body is not None and any(view.text(it) == "task" and view.text(it - 2) == "tapa" for it in range(body, at))


def is_inner(view: View, at: int) -> bool:
    """A loop, or a lexeme of an upper-level task within a block of its body."""
    brace = view.enclosing(at)
    return view.text(at) != "tapa" or brace is not None and view.text(brace) == "{" and view.text(view.open.get(brace - 1, 0) - 1) in ("for", "while", "if")


def declares_nothing(view: View, at: int) -> bool:
    """An assignment that declares no variable in a condition."""
    bracket = view.enclosing(at)
    return bracket is None or view.text(bracket - 1) not in ("if", "while") or view.text(bracket + 1) not in RESERVED


def is_no_integer(view: View, at: int) -> bool:
    """A word that begins with a digit and has an exponent or a floating-point suffix."""
    word = view.text(at).lower()
    return view.kind(at) == "number" and not word.startswith(("0x", "0b")) and any(it in word for it in "ef")


def is_field(view: View, at: int) -> bool:
    """What stands behind `a.b` or `m[0].b` where no call and no channel of a memory is."""
    channels = ("read_addr", "read_data", "write_addr", "write_data", "write_resp", "invoke")
    return view.text(at - 1) not in channels and view.text(at + 1) != "invoke" and not (view.text(at - 1) == "]" and view.text(at + 2) == "(")


def is_in_turn(view: View, at: int, sort: str) -> bool:
    """Whether an array stands whose elements are handed out one after another, in an invoke that is counted or made once."""
    use = use_at(view, at)
    return use is not None and use.is_counted == (sort == "counted")


# What else must hold at a lexeme, by its word in the table.
TESTS: Dict[str, Callable[..., object]] = {
    "is": lambda view, at, step, words: view.text(at + int(step)) in words.split("|"),
    "not": lambda view, at, step, words: view.text(at + int(step)) not in words.split("|"),
    "item": lambda view, at, sort: any(it.begin == at and it.kind == sort for it in view.items),
    "array": lambda view, at: any(it.kind == "array" and it.begin <= at < it.end for it in view.items),
    "name": lambda view, at: view.is_name(at),
    "word": lambda view, at: view.kind(at) == "name",
    "behind-body": lambda view, at: view.text(view.open.get(at - 1, 0) - 1) not in ("=", "]"),
    "outside-for": lambda view, at: view.text((view.enclosing(at) or 0) - 1) != "for",
    "method": lambda view, at: not view.text(at + 2).startswith(("read_", "write_")),
    # An operator that does not write or read, or a number that is not the first one in the braces of a value.
    "statement": lambda view, at: view.text(at) not in ("<<", ">>") and not (view.text(at - 1) == "{" and view.is_name(at - 2)),
    # The `(` of a call of something that is no method, no invoke and no stream with a name.
    "called": lambda view, at: view.kind(at + 1) != "text" and view.text(at - 2) not in (".", "::", "->") and view.text(at - 1) not in ("invoke", "task"),
    "in-expression": is_in_expression, "second-chain": has_chain_before, "inner": is_inner, "no-declaration": declares_nothing, "no-integer": is_no_integer, "field": is_field, "in-turn": is_in_turn,
}

TABLE = [Pattern(name, codes.split(), regions.split(), [it.split() for it in tests.split(" and ") if it], patterns) for name, codes, regions, tests, *patterns in tables.rows("language/patterns.rows")]
# For each text of a lexeme the constructs and patterns that may stand at it.
MAY_BE: Dict[str, List[Tuple[Pattern, str]]] = {}


def candidates(view: View, at: int) -> Iterator[Tuple[Pattern, str]]:
    """The constructs, each with one of its patterns, whose word at the place may be a lexeme, in the order of the table."""
    text = view.text(at)
    if text not in MAY_BE:
        MAY_BE[text] = [(construct, pattern) for construct in TABLE for pattern in construct.patterns if may_be(pattern, text)]
    return iter(MAY_BE[text])


def may_be(pattern: str, text: str) -> bool:
    """Whether a pattern's word at the place may be a lexeme of this text: it is this text, or stands for many."""
    here = compiled(pattern)[1]
    stands_for = here.isupper() or len(here) > 1 and here[0] == "!"
    return text in SORTS[here] if here in SORTS else stands_for or text == here or here[0].isalpha() and text in here.split("|")


def found(view: View, at: int, code: str) -> Optional[Pattern]:
    """The first construct whose pattern stands at a lexeme and that is refused with this code."""
    return next((it for it in standing(view, at) if code in it.codes), None)


def standing(view: View, at: int) -> Iterator[Pattern]:
    """The constructs whose patterns stand at a lexeme, in the order of the table."""
    region = view.regions[min(at, len(view.words))]
    for construct, pattern in candidates(view, at):
        if construct.regions and region not in construct.regions:
            continue
        if matches(view, pattern, at) and all(TESTS[test](view, at, *words) for test, *words in construct.tests):
            yield construct
