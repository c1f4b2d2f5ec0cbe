"""The grammar of sources as docs/LANGUAGE.md spells it: its productions, the words that are no names, and what counts as open."""
import re
from typing import Dict, FrozenSet, List, NamedTuple, Tuple

from runner.trial import read

PAGE = "docs/LANGUAGE.md"
# What the page says in words: an index bracket is that of a place, and the signs before a `unary` and before a `place` are prefix operators.
INDEXED, CONDITIONAL, STATEMENT, SUM = "place", "expr", "stmt", "sum"
PREFIXED = {"unary": "- + ~ !".split(), "act": "++ --".split()}


class Production(NamedTuple):
    """One way to spell a part: the rule of the page that it is of, and its symbols. A symbol that begins with a quotation mark is a word of the source."""

    rule: str
    symbols: Tuple[str, ...]


class Grammar(NamedTuple):
    """All productions of each part; parts that may be empty; words that are never names, words that are none behind `tapa ::` and `.`; the limits."""

    productions: Dict[str, List[Production]]
    repeated: FrozenSet[str]
    reserved: FrozenSet[str]
    reserved_behind: FrozenSet[str]
    levels: int
    operators: int
    binary: FrozenSet[str]


class Notation:
    """Reads productions: `[x]` is optional, `{x}` is any number. Options and choices are written out; each repetition becomes a part of its own."""

    def __init__(self, text: str) -> None:
        self.words = re.findall(r'"[^"]*"|\w+|[=|\[\]{}()]', text)
        self.at = 0
        self.productions: Dict[str, List[Production]] = {}
        self.repeated: List[str] = []
        while self.at < len(self.words):
            self.rule = self.words[self.at]
            self.at += 2
            self.productions[self.rule] = [Production(self.rule, symbols) for symbols in self.choice()]

    def is_end(self) -> bool:
        """Whether the rule ends here: at the text's end, or before the name of the next rule."""
        return self.at == len(self.words) or self.words[self.at + 1:self.at + 2] == ["="] or self.words[self.at] in ("]", "}", ")")

    def choice(self) -> List[Tuple[str, ...]]:
        """All spellings of what stands from here to the end of the rule or to the closing bracket."""
        found = self.sequence()
        while not self.is_end() and self.words[self.at] == "|":
            self.at += 1
            found += self.sequence()
        return found

    def sequence(self) -> List[Tuple[str, ...]]:
        found: List[Tuple[str, ...]] = [()]
        while not self.is_end() and self.words[self.at] != "|":
            found = [front + back for back in self.item() for front in found]
        return found

    def item(self) -> List[Tuple[str, ...]]:
        word = self.words[self.at]
        self.at += 1
        if word not in ("[", "{", "("):
            return [(word,)]
        inside = self.choice()
        self.at += 1
        if word == "[":
            return [()] + inside
        return [(self.repetition(inside),)] if word == "{" else inside

    def repetition(self, inside: List[Tuple[str, ...]]) -> str:
        """A part that is empty, or itself and one more."""
        part = f"{self.rule} {len(self.repeated)}"
        self.repeated.append(part)
        self.productions[part] = [Production(self.rule, (part,) + symbols) for symbols in inside]
        return part


def quoted(words: List[str]) -> List[str]:
    return [f'"{word}"' for word in words]


def put_operators(productions: Dict[str, List[Production]], levels: List[List[str]]) -> List[str]:
    """Puts the levels of binary operators, loosest first, from `lor` down to `unary`; the level of `+ -` is `sum`. Answers their names."""
    names = ["lor"] + [SUM if level == ["+", "-"] else f"level {level[0]}" for level in levels[1:]] + ["unary"]
    for name, tighter, signs in zip(names, names[1:], levels):
        productions[name] = [Production(name, (tighter,))] + [Production(name, (name, sign, tighter)) for sign in quoted(signs)]
    return names[:-1]


def found_in(page: str, pattern: str) -> List[str]:
    """The groups of a pattern in the page; a page that says it in other words is no page for this reader."""
    found = re.search(pattern, page, re.S)
    if not found:
        raise ValueError(f"{PAGE} has no text as {pattern}")
    return list(found.groups())


def grammar() -> Grammar:
    """The grammar of the page."""
    page = read(PAGE)
    block, = found_in(page, r"## Grammar.*?```\n(.*?)```")
    notation = Notation(block)
    levels = [level.split() for level in re.findall(r"`([^`]*)`", found_in(page, r"loosest first: (.*?);")[0])]
    binary = put_operators(notation.productions, levels)
    always, never, behind = found_in(page, r"never names: `([^`]*)`\. These are\s+reserved too, and occur in no production: `([^`]*)`\. The words `([^`]*)` are reserved after")
    first, last = found_in(page, r"`fixed` are the eight types `(\w+)` to `(\w+)`")
    reserved = always.split()
    fixed = reserved[reserved.index(first):reserved.index(last) + 1]
    notation.productions["fixed"] = [Production("fixed", (word,)) for word in quoted(fixed)]
    most = [int(number.replace(",", "")) for number in found_in(page, r"more than (\d+) constructs are open.*?more than ([\d,]+) operators")]
    return Grammar(notation.productions, frozenset(notation.repeated), frozenset(reserved + never.split()), frozenset(behind.split()), most[0], most[1], frozenset(binary))


def opened(production: Production) -> List[int]:
    """How many levels a production itself has open before each of its symbols and at its end. A parenthesis and an index bracket are open up to the one that closes them,
    the parenthesis of a cast over its operand too; a `?` is open over both arms, and a prefix operator over what it stands before."""
    count, counts = 0, [0]
    is_cast = production.rule == "unary" and production.symbols[0] == '"("'
    for at, symbol in enumerate(production.symbols):
        is_prefix = at == 0 and symbol.strip('"') in PREFIXED.get(production.rule, [])
        is_bracket = production.rule == INDEXED and symbol in ('"["', '"]"')
        if symbol == '"("' or is_prefix or symbol == '"?"' or is_bracket and symbol == '"["':
            count += 1
        elif symbol == '")"' and not is_cast or is_bracket:
            count -= 1
        counts.append(count)
    return counts


def is_operator(of: Grammar, production: Production, at: int) -> bool:
    """Whether a symbol of a production is an operator of an expression: a binary one, a prefix operator, or a `?`."""
    symbol = production.symbols[at]
    if production.rule in of.binary:
        return at == 1
    return symbol == '"?"' or production.rule == "unary" and at == 0 and symbol.strip('"') in PREFIXED["unary"]
