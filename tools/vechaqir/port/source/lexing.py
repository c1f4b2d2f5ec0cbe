"""The words of a C++ text with their offsets. Any text has words: what is none is a word of one character."""
import re
from typing import Dict, List, NamedTuple, Optional

SIGNS = "<=> ... ->* <<= >>= ## :: << >> <= >= == != && || ++ -- += -= *= /= %= &= |= ^= -> .*".split()
WORD = re.compile(
    r"(?P<space>[ \t\r\f\v]+|\\\r?\n)|(?P<newline>\n)|(?P<comment>//(?:\\\r?\n|[^\n])*|/\*.*?(?:\*/|\Z))"
    r'|(?P<raw>(?:u8|[uUL])?R"(?P<fence>[^()\\\s]{0,16})\(.*?\)(?P=fence)")'
    r'|(?P<text>(?:u8|[uUL])?"(?:\\.|[^"\\\n])*"?)|(?P<character>(?:u8|[uUL])?\'(?:\\.|[^\'\\\n])+\')'
    r"|(?P<number>\.?[0-9](?:[eEpP][-+]|'(?=[0-9a-zA-Z])|[0-9A-Za-z_.])*)|(?P<name>[A-Za-z_\x80-\xff][A-Za-z0-9_\x80-\xff]*)"
    r"|(?P<sign>" + "|".join(re.escape(it) for it in SIGNS) + r")|(?P<other>.)", re.S)
PAIRS = {"(": ")", "[": "]", "{": "}"}
GAPS = ("space", "newline", "comment")


class Word(NamedTuple):
    """A word: its kind, its text, and the offsets of its first character and of the one after it."""

    kind: str
    text: str
    begin: int
    end: int


def every(text: str) -> List[Word]:
    """All words, also blanks, line ends and comments."""
    return [Word("text" if it.lastgroup in ("raw", "fence") else it.lastgroup or "other", it[0], it.start(), it.end()) for it in WORD.finditer(text)]


def words(text: str) -> List[Word]:
    """The words without blanks, line ends and comments."""
    return [it for it in every(text) if it.kind not in GAPS]


class Words:
    """The words of a text, found by their offsets, and the pairs of brackets."""

    def __init__(self, text: str) -> None:
        self.text = text
        self.all = words(text)
        self.index = {it.begin: at for at, it in enumerate(self.all)}
        self.closing = self._pairs()

    def _pairs(self) -> Dict[int, int]:
        """The index of the closing bracket of each opening one that has one."""
        found: Dict[int, int] = {}
        open_: List[int] = []
        for at, it in enumerate(self.all):
            if it.text in PAIRS:
                open_.append(at)
            elif it.text in (")", "]", "}"):
                while open_ and PAIRS[self.all[open_[-1]].text] != it.text and it.text == "}":
                    open_.pop()
                if open_ and PAIRS[self.all[open_[-1]].text] == it.text:
                    found[open_.pop()] = at
        return found

    def after(self, offset: int) -> int:
        """The index of the first word that begins at an offset or after it."""
        low, high = 0, len(self.all)
        while low < high:
            middle = (low + high) // 2
            if self.all[middle].begin < offset:
                low = middle + 1
            else:
                high = middle
        return low

    def at(self, offset: int) -> Optional[Word]:
        """The word that begins at an offset or is the next after it."""
        index = self.after(offset)
        return self.all[index] if index < len(self.all) else None

    def between(self, begin: int, end: int) -> List[Word]:
        """The words from an offset up to another."""
        return self.all[self.after(begin):self.after(end)]

    def statement_end(self, offset: int) -> int:
        """The offset after the `;` that ends a simple statement which begins at an offset."""
        at = self.after(offset)
        while at < len(self.all):
            it = self.all[at]
            if it.text == ";":
                return it.end
            if it.text in (")", "]", "}"):
                return it.begin
            at = self.closing.get(at, at) + 1
        return len(self.text)
