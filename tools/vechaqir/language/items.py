"""What stands at the file's level of a source: tasks, and the constants, functions, types and other items of C++ beside them."""
from typing import Dict, Iterator, List, NamedTuple, Sequence

from . import kinds
from .lexemes import Lexeme

# The word with which an item of this kind begins.
BY_FIRST = {"template": "template", "struct": "struct", "class": "struct", "union": "struct", "enum": "enumeration", "using": "alias", "typedef": "alias",
            "static_assert": "assertion"}
BEFORE = ("static", "inline", "extern", "constexpr", "const", "explicit", "virtual")


class Item(NamedTuple):
    """An item: its kind (`task`, `function`, `main`, `constant`, `array`, `variable`, `declaration`, `template`, `struct`, `enumeration`, `alias`, `assertion`,
    `opening` and `closing` of a namespace, or `other`), the name that it declares or the empty one, and the indices of its first lexeme and of the one behind it."""

    kind: str
    name: str
    begin: int
    end: int


def ends_at(words: Sequence[Lexeme], close: Dict[int, int], begin: int) -> int:
    """The index behind an item: behind its `;`, or behind the braces of a body."""
    at = begin
    is_type = words[begin].text in BY_FIRST and words[begin].text != "template"
    while at < len(words):
        text = words[at].text
        if text == ";":
            return at + 1
        if text == "}":
            return max(at, begin + 1)
        if text == "{" and not is_type and at > 0 and words[at - 1].text != "=":
            end = close.get(at, len(words) - 1) + 1
            return end + 1 if end < len(words) and words[end].text == ";" and words[at - 1].text == "]" else end
        at = close.get(at, at) + 1
    return len(words)


def declared(words: Sequence[Lexeme], begin: int, end: int) -> str:
    """The name that an item declares: the last one before its first `(`, `[`, `=`, `{` or `;`."""
    name = ""
    for at in range(begin, end):
        if words[at].text in ("(", "[", "=", "{", ";"):
            return name
        if words[at].kind == "name":
            name = words[at].text
    return name


def kind_of(words: Sequence[Lexeme], close: Dict[int, int], begin: int, end: int) -> str:
    first = words[begin].text
    if first in BY_FIRST:
        return BY_FIRST[first]
    start = begin
    while start < end and (words[start].text in BEFORE or words[start].kind == "text"):
        start += 1
    kind = kinds.kind_at(words, start)
    name = kind[1] if kind else start + 1
    sign = words[name + 1].text if name + 1 < end else ""
    if sign == "(" and name + 1 in close:
        behind = close[name + 1] + 1
        if behind < end and words[behind].text == "{":
            return "main" if words[name].text == "main" else "task" if words[start].text == "void" else "function"
        return "declaration"
    is_const = any(words[at].text in ("const", "constexpr") for at in range(begin, start))
    if sign == "[":
        return "array"
    if sign in ("=", ";", "{"):
        return "constant" if is_const else "variable"
    has_body = any(words[at].text == "(" and words[close[at] + 1].text == "{" for at in range(begin, end) if at in close and close[at] + 1 < end)
    return "function" if has_body else "other"


def items(words: Sequence[Lexeme], close: Dict[int, int]) -> Iterator[Item]:
    """The items of a file in order. A namespace and an `extern "C"` are their opening and closing, with their items between."""
    at = 0
    while at < len(words):
        text = words[at].text
        if text in ("namespace", "extern"):
            brace = next((it for it in range(at, min(at + 6, len(words))) if words[it].text in ("{", ";", "(")), at)
            if words[brace].text == "{":
                yield Item("opening", "", at, brace + 1)
                at = brace + 1
                continue
        if text in ("}", ";"):
            yield Item("closing" if text == "}" else "other", "", at, at + 1)
            at += 1
            continue
        begin = at
        while words[at].text == "[" and at in close and close[at] + 1 < len(words):
            at = close[at] + 1
        end = max(ends_at(words, close, at), at + 1)
        yield Item(kind_of(words, close, at, end), declared(words, at, end), begin, end)
        at = end


def named(found: Sequence[Item], kind: str) -> List[str]:
    """The names of all items of a kind."""
    return [it.name for it in found if it.kind == kind]
