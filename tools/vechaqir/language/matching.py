"""Patterns of constructs: what stands at a lexeme of a source and around it.

A pattern is words with blanks between, one of which is marked by `@`: that is the lexeme at the place. `NAME` is a name that is no reserved word, `WORD` any name,
`NUMBER`, `TEXT` and `CHARACTER` a lexeme of this kind, `ANY` any lexeme, `KIND` a kind of the language, `COMPARE`, `STEP`, `ASSIGN`, `OPERATOR`, `BITWISE` signs of this sort,
`START` the beginning of a statement. `STRUCT`, `ALIAS`, `TASK`, `MEMORY`, `UNCOUNTED` are names that the source declares so. `(..)`, `[..]`, `{..}` and `<..>` are brackets with all
that is in them, `..` anything within a statement and between commas, `...` anything within a statement. `a|b` is one of both, `!a` none of it.
"""
from typing import Callable, Dict, List, Optional, Sequence, Set, Tuple

from . import items, kinds, lexemes
from .lexemes import RESERVED, Lexeme
from .syntax import Source, Task

SORTS: Dict[str, Set[str]] = {
    "COMPARE": {"==", "!=", "<", ">", "<=", ">="},
    "STEP": {"++", "--"},
    "ASSIGN": {"=", "+=", "-=", "*=", "/=", "%=", "&=", "|=", "^=", "<<=", ">>="},
    "OPERATOR": {"+", "-", "*", "/", "%", "<<", ">>", "&", "|", "^"},
    "BITWISE": {"&", "|", "^", "&&", "||", "?"},
    "UNARY": {"=", "(", ",", "<<", "+", "-", "/", "%", "|", "^", "&&", "||", "==", "!=", "<", "<=", ">=", "?", "[", "+=", "-=", "return"},
}
KINDS_OF = {"NUMBER": "number", "TEXT": "text", "CHARACTER": "character", "WORD": "name"}
TYPE_WORDS = set(kinds.ONE)
MOST = 200


class View:
    """A source as patterns look at it: its lexemes, their brackets, and in which part of the file each stands."""

    def __init__(self, source: Source) -> None:
        self.source = source
        self.words: List[Lexeme] = source.lexemes
        self.close = lexemes.partners(self.words)
        self.open = {there: here for here, there in self.close.items()}
        self.items = list(items.items(self.words, self.close))
        self.structs = set(items.named(self.items, "struct"))
        self.aliases = {self.words[it.begin + 1].text if self.words[it.begin].text == "using" else self.words[it.end - 2].text
                        for it in self.items if it.kind == "alias" and it.end - it.begin > 2} | set(items.named(self.items, "enumeration"))
        self.regions = [""] * (len(self.words) + 1)
        for item in self.items:
            self.mark(item)

    def mark(self, item: items.Item) -> None:
        """Gives the lexemes of an item their region: `file`, `head` of a task, `leaf`, `upper`, or `other` within functions and types."""
        body = next((at for at in range(item.begin, item.end) if self.words[at].text == "{" and self.words[at - 1].text == ")"), item.end)
        is_inner = item.kind in ("function", "main", "struct", "template", "enumeration", "assertion")
        is_upper = any(self.text(at) == "tapa" and self.text(at + 2) in ("task", "stream", "streams") for at in range(body, item.end))
        for at in range(item.begin, item.end):
            inner = "upper" if is_upper else "leaf"
            region = "file" if at == item.begin or not is_inner and at < body else "other" if is_inner else inner
            self.regions[at] = region
        if item.kind == "task":
            opening = next((at for at in range(item.begin, body) if self.words[at].text == "("), body)
            for at in range(opening, min(self.close.get(opening, opening) + 1, body)):
                self.regions[at] = "head"

    def text(self, at: int) -> str:
        return self.words[at].text if 0 <= at < len(self.words) else ""

    def kind(self, at: int) -> str:
        return self.words[at].kind if 0 <= at < len(self.words) else ""

    def is_name(self, at: int) -> bool:
        return self.kind(at) == "name" and self.text(at) not in RESERVED

    def task(self, at: int) -> Optional[Task]:
        return self.source.task_at(self.words[at].begin) if 0 <= at < len(self.words) else None

    def enclosing(self, at: int) -> Optional[int]:
        """The index of the innermost bracket that is open before a lexeme."""
        at -= 1
        while at >= 0:
            if at in self.open:
                at = self.open[at]
            elif self.text(at) in lexemes.OPENING:
                return at
            at -= 1
        return None

    def starts(self, at: int) -> bool:
        """Whether a statement may begin at a lexeme."""
        before = self.text(at - 1)
        if before in (";", "}"):
            bracket = self.enclosing(at)
            return bracket is None or self.text(bracket) == "{"
        if before == ":":
            return self.is_name(at - 2) and self.starts(at - 2) or self.text(at - 3) == "case"
        is_head = before == ")" and self.text(self.open.get(at - 1, 0) - 1) in ("if", "while", "for", "TAPA_WHILE_NOT_EOT")
        return before in ("", "else") or before == "{" and not self.is_list(at - 1) or is_head or self.behind_attribute(at)

    def is_list(self, at: int) -> bool:
        """Whether a `{` begins a list of values."""
        before = self.text(at - 1)
        return before in ("=", ",", "(") or before == "]" and not self.behind_attribute(at) or before == "{" and self.is_list(at - 1)

    def behind_attribute(self, at: int) -> bool:
        return self.text(at - 1) == "]" and self.text(at - 2) == "]" and self.text(self.open.get(at - 1, 0) + 1) == "["

    def sort(self, at: int, sort: str) -> bool:
        """Whether a lexeme is of a sort that a pattern names, or is this word."""
        text = self.text(at)
        if sort in SORTS:
            return self.kind(at) == "sign" and text in SORTS[sort] or text == "return" and sort == "UNARY"
        if sort in KINDS_OF:
            return self.kind(at) == KINDS_OF[sort]
        if sort == "NAME":
            return self.is_name(at)
        if sort == "ANY":
            return 0 <= at < len(self.words)
        if sort in DECLARED:
            return DECLARED[sort](self, at)
        return text == sort


def is_memory(view: View, at: int) -> bool:
    task = view.task(at)
    parameter = task.parameter(view.text(at)) if task else None
    return parameter is not None and parameter.direction == "mmap"


def is_task(view: View, at: int) -> bool:
    task = view.source.tasks.get(view.text(at))
    return task is not None and any(it.direction != "scalar" for it in task.parameters)


def is_uncounted(view: View, at: int) -> bool:
    """A word that can't be a count: a name that is no constant of one literal, or a number out of range."""
    text = view.text(at)
    number = view.source.counts.get(text) if view.is_name(at) else lexemes.decimal(text) if text.isdecimal() and text[0] != "0" else 0
    return (view.is_name(at) or view.kind(at) == "number") and not 1 <= (number or 0) <= 512


DECLARED: Dict[str, Callable[[View, int], bool]] = {
    "STRUCT": lambda view, at: view.kind(at) == "name" and view.text(at) in view.structs,
    "ALIAS": lambda view, at: view.kind(at) == "name" and view.text(at) in view.aliases,
    "TASK": is_task,
    "MEMORY": is_memory,
    "UNCOUNTED": is_uncounted,
}


def one(view: View, token: str, at: int) -> bool:
    """Whether a lexeme is what a word of a pattern that is no run asks for."""
    if len(token) > 1 and token[0] == "!":
        return 0 <= at < len(view.words) and not one(view, token[1:], at)
    if "|" in token and token[0].isalpha():
        return any(view.sort(at, it) for it in token.split("|"))
    return view.sort(at, token)


def forward(view: View, tokens: Sequence[str], at: int) -> bool:
    """Whether the words of a pattern stand from a lexeme on."""
    if not tokens:
        return True
    token, rest = tokens[0], tokens[1:]
    if token == "KIND":
        found = kinds.kind_at(view.words, at)
        return found is not None and forward(view, rest, found[1])
    if token in ("(..)", "[..]", "{..}"):
        return view.text(at) == token[0] and at in view.close and forward(view, rest, view.close[at] + 1)
    if token == "<..>":
        end = angle(view, at)
        return end is not None and forward(view, rest, end + 1)
    if token in ("..", "..."):
        return run(view, token, at, 1, lambda there: forward(view, rest, there))
    return one(view, token, at) and forward(view, rest, at + 1)


def backward(view: View, tokens: Sequence[str], at: int) -> bool:
    """Whether the words of a pattern stand up to a lexeme."""
    if not tokens:
        return True
    token, rest = tokens[-1], tokens[:-1]
    if token == "START":
        return view.starts(at + 1) and not rest
    if token == "KIND":
        begin = at
        while view.text(begin) in TYPE_WORDS:
            begin -= 1
        if view.text(begin) == "::" and view.text(begin - 1) == "std":
            begin -= 2
        return begin < at and backward(view, rest, begin)
    if token in ("(..)", "[..]", "{..}"):
        return at in view.open and view.text(view.open[at]) == token[0] and backward(view, rest, view.open[at] - 1)
    if token == "<..>":
        begin = at
        while begin > max(0, at - MOST) and angle(view, begin) != at:
            begin -= 1
        return angle(view, begin) == at and backward(view, rest, begin - 1)
    if token in ("..", "..."):
        return run(view, token, at, -1, lambda there: backward(view, rest, there))
    return one(view, token, at) and backward(view, rest, at - 1)


def run(view: View, token: str, at: int, step: int, goes_on: Callable[[int], bool]) -> bool:
    """Whether what is behind `..` or `...` stands behind some run of lexemes of one statement; brackets are passed as a whole."""
    for _ in range(MOST):
        if goes_on(at):
            return True
        text = view.text(at)
        jump = view.close if step > 0 else view.open
        if at in jump and text in "()[]":
            at = jump[at]
        elif text in ("", ";", "{", "}", "(", ")", "[", "]") or text == "," and token == "..":
            return False
        at += step
    return False


def angle(view: View, at: int) -> Optional[int]:
    """The `>` that closes a `<` of a type."""
    if view.text(at) != "<":
        return None
    depth = 0
    for there in range(at, min(at + MOST, len(view.words))):
        text = view.text(there)
        depth += (text == "<") - (len(text) if text in (">", ">>") else 0)
        if depth <= 0:
            return there
        if text in (";", "{", "}"):
            return None
    return None


def compiled(pattern: str) -> Tuple[List[str], str, List[str]]:
    """The words before the place, the one at it, and those behind it."""
    tokens = pattern.split()
    here = next(at for at, token in enumerate(tokens) if token[0] == "@")
    return tokens[:here], tokens[here][1:], tokens[here + 1:]


COMPILED: Dict[str, Tuple[List[str], str, List[str]]] = {}


def matches(view: View, pattern: str, at: int) -> bool:
    """Whether a pattern stands at a lexeme of a source; the index of its end is past the last one."""
    if pattern not in COMPILED:
        COMPILED[pattern] = compiled(pattern)
    before, here, behind = COMPILED[pattern]
    if here == "KIND":
        found = kinds.kind_at(view.words, at)
        return found is not None and forward(view, behind, found[1]) and backward(view, before, at - 1)
    return one(view, here, at) and forward(view, behind, at + 1) and backward(view, before, at - 1)
