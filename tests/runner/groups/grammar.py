"""500 sources changed at random: a second recogniser, which has only the productions and limits of the page Language, reports P1 or P2 at the same places, or accepts the same
sources. The recogniser is `runner/second/recogniser.py`. What the rules on names and kinds say of it is not looked at. `tests/stress/more.py PROGRAM grammar` tries more."""
import glob
import os
import random
import re
from pathlib import Path
from typing import Callable, Dict, List, Tuple

from runner.groups import sources

from runner.made import leaves, nests

from runner.second import grammar
from runner.second.recogniser import Recogniser, lexemes
from runner.trial import ROOT

SOURCES, LEAST = 500, {"P1": 100, "P2": 30, "": 50}
FOLDERS = ("examples", "tests/cases/circuits", "tests/cases/newcomer")
TABLES = ("bindings", "invocations", "items", "limits", "names", "operations", "order", "grammar")
# The most lexemes of a source that is changed, and how many random leaf tasks there are among them.
LONG, LEAVES = 200, 20
# The end of a literal: a digit, and no suffix or one that the language has.
SUFFIX = re.compile(r"[0-9a-fA-F](?:[uU](?:l|ll|L|LL)?|(?:l|ll|L|LL)[uU]?)?$")
MORE_WORDS = "x q N 0 1 7u 0x1F \"s\" char return auto".split()
# What stands behind the last word.
ENDS = [b"\n", b"\n", b"", b" ", b"\n\n", b" // the end\n", b"\n/* the end */"]

# A source: its words, each behind the blanks and comments before it.
Words = List[Tuple[str, str]]


def words_of(text: bytes) -> Words:
    """The words of a text. Where a `#` line or a `#` in a comment stands before a word there is a line's end in its place."""
    found, end = [], 0
    for it in lexemes.words(lexemes.every(text)):
        gap = text[end:it.begin].decode("latin-1")
        found.append(("\n" if "#" in gap else gap, it.text))
        end = it.end
    return found


def text_of(words: Words) -> bytes:
    return "".join(gap + word for gap, word in words).encode("latin-1")


def is_lexeme(it: lexemes.Lexeme) -> bool:
    """Whether a word of a text is a lexeme of the language; literals that not every kind of 64 bits holds are left out."""
    if it.kind == "number":
        value = lexemes.value(it.text)
        return value is not None and value < 1 << 63 and SUFFIX.search(it.text) is not None
    if it.kind == "text":
        return re.fullmatch(r'"[ !#-\[\]-~]*"', it.text) is not None
    return it.kind == "name" or it.kind == "sign" and it.text != "->"


def has_arrays(words: Words) -> bool:
    """Whether stream arrays or counted invokes are in a source, which are written out before the grammar is looked at."""
    texts = [word for _, word in words]
    return "streams" in texts or any(texts[at:at + 4] == ["invoke", "<", "tapa", "::"] and texts[at + 5:at + 6] == [","] for at in range(len(texts)))


def items(words: Words) -> List[Words]:
    """The tasks and constants of a source: they end behind a `;` or `}` with no brace open."""
    found: List[Words] = [[]]
    depth = 0
    for gap, word in words:
        depth += (word == "{") - (word == "}")
        found[-1].append((gap, word))
        if word in (";", "}") and depth <= 0:
            found.append([])
    return [it for it in found if it]


def rows() -> List[str]:
    """The sources of the tables in tests/cases/sources, those that are refused and those that are not."""
    found = []
    for name in TABLES:
        first, lines = sources.table(f"tests/cases/sources/{name}.rows")
        if first in ("whole", "grammar"):
            found += [text for line in lines for text in sources.parts(line)[1]]
        elif first.startswith("in "):
            before, after = sources.context(first[3:])
            found += [before + text + after for line in lines for text in sources.parts(line)[1]]
    return found


def pieces() -> List[Words]:
    """What is changed: each source as a whole where it is short, and each of its tasks and constants with the one behind it."""
    texts = [text.encode() for text in rows()] + [leaves.source(seed).encode() for seed in range(LEAVES)]
    for folder in FOLDERS:
        for path in sorted(glob.glob(os.path.join(ROOT, folder, "*.cpp"))):
            texts.append(Path(path).read_bytes())
    found = []
    for text in texts:
        whole = words_of(text)
        parts = items(whole)
        found += [whole] + ([first + second for first, second in zip(parts, parts[1:])] + parts if len(whole) > LONG else [])
    return [it for it in found if it and len(it) <= LONG and all(map(is_lexeme, lexemes.every(text_of([(" ", word) for _, word in it])))) and not has_arrays(it)]


class Changes:
    """A source changed at random."""

    def __init__(self, some: random.Random, stock: List[Words], pool: List[str]) -> None:
        self.some, self.stock, self.pool = some, stock, pool
        self.ways: List[Callable[[Words, int], Words]] = [self.left_out, self.doubled, self.swapped, self.replaced, self.put_in, self.cut, self.joined] + 4 * [self.replaced_alike]

    def words(self) -> Words:
        words = list(self.some.choice(self.stock))
        for _ in range(self.some.choice([1, 1, 1, 2, 3])):
            if words:
                words = self.some.choice(self.ways)(words, self.some.randrange(len(words)))
        return words

    def word(self, words: Words) -> str:
        """A word of the grammar, or one of the source."""
        return self.some.choice(self.pool) if self.some.random() < 0.5 else self.some.choice(words)[1]

    def with_blank(self, words: Words, at: int) -> Words:
        """A word that now stands behind another has a blank before it."""
        return words[:at] + [(gap or " ", word) for gap, word in words[at:at + 1]] + words[at + 1:]

    def left_out(self, words: Words, at: int) -> Words:
        return self.with_blank(words[:at] + words[at + 1:], at)

    def put_in(self, words: Words, at: int) -> Words:
        return self.with_blank(words[:at] + [(" ", self.word(words))] + words[at:], at + 1)

    def doubled(self, words: Words, at: int) -> Words:
        return self.with_blank(words[:at + 1] + [(" ", words[at][1])] + words[at + 1:], at + 2)

    def swapped(self, words: Words, at: int) -> Words:
        return self.with_blank(words[:at] + [(" ", word) for _, word in words[at:at + 2][::-1]] + words[at + 2:], at + 2)

    def replaced(self, words: Words, at: int) -> Words:
        return self.with_blank(words[:at] + [(" ", self.word(words))] + words[at + 1:], at + 1)

    def replaced_alike(self, words: Words, at: int) -> Words:
        """A word of the same kind comes in place of another, so that a file often stays one."""
        kind = lexemes.every(words[at][1].encode("latin-1"))[0].kind
        alike = [word for _, word in words if lexemes.every(word.encode("latin-1"))[0].kind == kind]
        return self.with_blank(words[:at] + [(" ", self.some.choice(alike))] + words[at + 1:], at + 1)

    def cut(self, words: Words, at: int) -> Words:
        return words[:at]

    def joined(self, words: Words, at: int) -> Words:
        """The front of one source before the front or the back of another, or before what stands there behind the same word."""
        other = self.some.choice(self.stock)
        place = self.some.randrange(len(other))
        same = [number for number, (_, word) in enumerate(other) if word == words[at][1]]
        behind = self.some.choice([other[:place], other[place:], other[self.some.choice(same):] if same else other])
        return self.with_blank(words[:at] + behind, at)


class Stock:
    """Sources to be judged, each by its number."""

    def __init__(self) -> None:
        of = grammar.grammar()
        self.recogniser = Recogniser(of)
        self.pieces = pieces()
        symbols = {symbol for productions in of.productions.values() for it in productions for symbol in it.symbols if symbol.startswith('"')}
        self.pool = sorted(symbol.strip('"') for symbol in symbols) + MORE_WORDS

    def source(self, number: int) -> bytes:
        """The changed source of a number: most are short, one in four is a deep nest, one in 24 a long expression."""
        some = random.Random(f"grammar {number}")
        while True:
            changes = Changes(some, self.pieces, self.pool)
            if number % 4 == 0:
                nest = words_of((nests.long(some) if number % 24 == 0 else nests.deep(some)).encode())
                words = changes.replaced(nest, some.randrange(max(len(nest) - 90, 0), len(nest))) if some.random() < 0.25 else nest
            else:
                words = changes.words()
            if not has_arrays(words):
                return text_of(words) + some.choice(ENDS)

    def try_source(self, trial, number: int) -> str:
        """Tries one source; answers the code that the grammar gives it, empty where it is a file."""
        source = self.source(number)
        wanted = self.recogniser.told(source)
        told = trial.told(source, steps="1")
        trial.check_equal(f"changed source {number}\n{source.decode('latin-1')}", "" if sources.is_parsed(told) else told, wanted)
        return wanted[:2]


def try_numbers(trial, numbers: range) -> Dict[str, int]:
    """Tries sources by their numbers; how often the grammar gave each code."""
    stock = Stock()
    found: Dict[str, int] = {}
    for number in numbers:
        code = stock.try_source(trial, number)
        found[code] = found.get(code, 0) + 1
    return found


def try_tables(trial) -> None:
    """The recogniser by itself: what the tables say of the grammar and of the limits."""
    recogniser = Recogniser(grammar.grammar())
    for name in ("grammar", "grown"):
        for row in sources.table(f"tests/cases/sources/{name}.rows")[1]:
            wanted, texts = sources.parts(row)
            text = texts[0] if name == "grammar" else sources.repeated(texts[1], texts[2], int(texts[0]), texts[3])
            trial.check_equal(f"the recogniser: {row[:200]}", recogniser.told(text.encode()) or "parsed", wanted)


def try_all(trial) -> None:
    try_tables(trial)
    found = try_numbers(trial, range(SOURCES))
    trial.check("changed sources with each code and files among them", all(found.get(code, 0) >= least for code, least in LEAST.items()), f"   {found}")
