"""Stream arrays and counted invokes of a source, written out as `tapa` reads them (docs/LANGUAGE.md, "Stream arrays").

A second implementation, apart from the product, which the tests of the product use: nothing here is proved.
"""
import bisect
import re
from typing import Callable, Dict, List, Optional, Tuple

from .kinds import MANY, ONE, SIZED
from .lexemes import RESERVED, decimal
from .strict import lexemes

# A word of the written-out text, with the index of the lexeme from which it comes; and a form: where it ends, and its words.
Word = Tuple[str, int]
Form = Tuple[int, List[Word]]

# The most elements, and the most bytes of a written-out text.
ELEMENTS, MOST = 512, 4_194_304
TEXTS = {"A1": "bad count", "A2": "array of another length", "A3": "array out of place", "A4": "written out too long"}


class Refused(Exception):
    """A code, and how many bytes stand before its place."""

    def __init__(self, code: str, at: int) -> None:
        super().__init__(code, at)
        self.code, self.at = code, at


class Writer:
    """A source, and what is known at a place of it: the constants, the arrays with their lengths, how many braces are open, and of each open parenthesis
    whether it is that of an invoke."""

    def __init__(self, source: bytes) -> None:
        self.source, self.all = source, lexemes(source)
        # behind the end stand empty words, so that one can look ahead
        self.texts = [text for _, text, _, _ in self.all] + [""] * 24
        self.kinds = [kind for kind, _, _, _ in self.all] + [""] * 24
        self.constants: Dict[str, Optional[int]] = {}
        self.arrays: Dict[str, int] = {}
        self.depth = 0
        self.opened: List[bool] = []
        self.close = self.closes()

    def closes(self) -> Dict[int, int]:
        """Of each parenthesis the one that closes it."""
        stack: List[int] = []
        close: Dict[int, int] = {}
        for i, text in enumerate(self.texts):
            if text == "(":
                stack.append(i)
            elif text == ")" and stack:
                close[stack.pop()] = i
        return close

    # ---- parts of a form

    def stands(self, i: int, *words: str) -> bool:
        return self.texts[i : i + len(words)] == list(words)

    def is_name(self, i: int) -> bool:
        return self.kinds[i] == "word" and self.texts[i] not in RESERVED

    def may_count(self, i: int) -> bool:
        """A literal or a name."""
        return self.kinds[i] == "number" or self.is_name(i)

    def number(self, i: int) -> Optional[int]:
        """What a decimal literal without suffix is, or a constant that is one."""
        if self.kinds[i] == "number":
            return decimal(self.texts[i]) if re.fullmatch(r"0|[1-9][0-9]*", self.texts[i]) else None
        return self.constants.get(self.texts[i]) if self.is_name(i) else None

    def count(self, i: int) -> int:
        self.stray(i, i + 1)
        number = self.number(i)
        if number is None or not 1 <= number <= ELEMENTS:
            raise Refused("A1", self.all[i][2])
        return number

    def array(self, i: int) -> Optional[int]:
        """The length of the array that is named here: no name behind a dot or behind `tapa ::` is an array's."""
        is_member = i > 0 and self.texts[i - 1] == "." or i > 1 and self.stands(i - 2, "tapa", "::")
        return self.arrays.get(self.texts[i]) if self.is_name(i) and not is_member else None

    def stray(self, i: int, j: int) -> None:
        """No array may be named from i to j."""
        for k in range(i, j):
            if self.array(k) is not None:
                raise Refused("A3", self.all[k][2])

    def type_end(self, i: int, is_behind: Callable[[int], bool]) -> Optional[int]:
        """Where a type ends that begins at i and has this behind it."""
        if self.stands(i, "std", "::") and self.texts[i + 2] in SIZED:
            return i + 3 if is_behind(i + 3) else None
        for words in MANY:
            if self.stands(i, *words) and is_behind(i + len(words)):
                return i + len(words)
        return i + 1 if self.texts[i] in ONE and is_behind(i + 1) else None

    # ---- declarations

    def names(self, i: int) -> Optional[Tuple[List[int], int]]:
        """The names from i to a `;`, each perhaps with a string in parentheses, and where the `;` is."""
        found = []
        while self.is_name(i):
            found.append(i)
            i += 1
            if self.texts[i] == "(" and self.kinds[i + 1] == "text" and self.texts[i + 2] == ")":
                i += 3
            if self.texts[i] == ";":
                return found, i
            if self.texts[i] != ",":
                return None
            i += 1
        return None

    def declared(self, i: int) -> Optional[Form]:
        """A declaration of arrays: where it ends, and its words with the lexemes that they come from."""
        if not self.stands(i, "tapa", "::", "streams", "<"):
            return None
        count = self.type_end(i + 4, lambda k: self.texts[k] == ",")
        if count is None or not self.may_count(count + 1):
            return None
        end = count + 2
        depth: List[int] = []
        if self.texts[end] == ",":
            if not self.may_count(end + 1):
                return None
            depth, end = [end, end + 1], end + 2
        found = self.names(end + 1) if self.texts[end] == ">" else None
        if found is None:
            return None
        names, semicolon = found
        length = self.count(count + 1)
        self.stray(count + 2, end)
        for name in names:
            if self.texts[name] in self.arrays:
                raise Refused("A3", self.all[name][2])
            self.arrays[self.texts[name]] = length
        words = [("tapa", i), ("::", i + 1), ("stream", i + 2), ("<", i + 3)] + [(self.texts[k], k) for k in [*range(i + 4, count), *depth, end]]
        elements = [(f"{self.texts[name]}_{number}", name) for name in names for number in range(length)]
        for number, element in enumerate(elements):
            words += [(",", element[1])] * (number > 0) + [element]
        return semicolon + 1, words + [(";", semicolon)]

    # ---- invokes

    def arguments(self, i: int, j: int) -> List[Tuple[int, int]]:
        """The arguments between two parentheses, each by its ends: they are cut at commas that are in no further parenthesis."""
        found: List[Tuple[int, int]] = []
        start, inside = i + 1, 0
        for k in range(i + 1, j):
            inside += {"(": 1, ")": -1}.get(self.texts[k], 0)
            if self.texts[k] == "," and inside == 0:
                found.append((start, k))
                start = k + 1
        return found + [(start, j)]

    def is_element(self, i: int) -> bool:
        """A name of an array with an index that is a number, and no name of an array."""
        is_indexed = self.array(i) is not None and self.texts[i + 1] == "[" and self.texts[i + 3] == "]"
        return is_indexed and self.number(i + 2) is not None and self.array(i + 2) is None

    def element(self, i: int) -> Word:
        if (self.number(i + 2) or 0) >= (self.array(i) or 0):
            raise Refused("A3", self.all[i][2])
        return f"{self.texts[i]}_{self.number(i + 2)}", i

    def argument(self, i: int, j: int, count: int) -> Callable[[int], List[Word]]:
        """Of an argument of a counted invoke its words in the invoke of a number."""
        if j == i + 1 and self.array(i) is not None:
            if self.array(i) != count:
                raise Refused("A2", self.all[i][2])
            return lambda number: [(f"{self.texts[i]}_{number}", i)]
        if j == i + 4 and self.is_element(i):
            word = self.element(i)
            return lambda number: [word]
        self.stray(i, j)
        return lambda number: [(self.texts[k], k) for k in range(i, j)]

    def counted(self, i: int) -> Optional[Form]:
        """A counted invoke: where it ends, and its words with the lexemes that they come from."""
        if not self.stands(i, ".", "invoke", "<", "tapa", "::") or self.texts[i + 5] not in ("join", "detach") or self.texts[i + 6] != ",":
            return None
        if not self.may_count(i + 7) or not self.stands(i + 8, ">", "(") or i + 9 not in self.close:
            return None
        end, count = self.close[i + 9], self.count(i + 7)
        made = [self.argument(a, b, count) for a, b in self.arguments(i + 9, end)]
        words: List[Word] = []
        for number in range(count):
            words += [(self.texts[k], k) for k in [*range(i, i + 6), i + 8, i + 9]]
            for place, argument in enumerate(made):
                words += [(",", i + 9)] * (place > 0) + argument(number)
            words.append((")", end))
        return end + 1, words

    def is_argument(self, i: int) -> bool:
        """An argument of an invoke begins at i."""
        return bool(self.opened) and self.opened[-1] and self.texts[i - 1] in ("(", ",")

    def opens_invoke(self, i: int) -> bool:
        """The parenthesis at i is that of an invoke."""
        with_mode = i > 6 and self.stands(i - 7, ".", "invoke", "<", "tapa", "::") and self.is_name(i - 2) and self.texts[i - 1] == ">"
        return with_mode or i > 1 and self.stands(i - 2, ".", "invoke")

    # ---- whole texts

    def form(self, i: int) -> Optional[Form]:
        """The form that begins at i, where there is one."""
        made = self.declared(i) or self.counted(i)
        if made:
            return made
        if self.is_argument(i) and self.is_element(i) and self.texts[i + 4] in (",", ")"):
            return i + 4, [self.element(i)]
        self.stray(i, i + 1)
        return None

    def constant(self, i: int) -> None:
        """Keeps a constant of the file that begins at i and is one literal."""
        j = self.type_end(i + 1, self.is_name) if self.depth == 0 and self.texts[i] in ("const", "constexpr") else None
        if j and self.texts[j + 1] == "=" and self.kinds[j + 2] == "number" and self.texts[j + 3] == ";" and self.number(j + 2) is not None:
            self.constants[self.texts[j]] = self.number(j + 2)

    def other(self, i: int) -> None:
        """Knows what a lexeme changes that is copied."""
        text = self.texts[i]
        self.constant(i)
        if text == "{":
            self.depth += 1
        elif text == "}":
            self.depth = max(0, self.depth - 1)
            if self.depth == 0:
                self.arrays = {}
        elif text == "(":
            self.opened.append(self.opens_invoke(i))
        elif text == ")" and self.opened:
            self.opened.pop()

    def written(self) -> Tuple[bytes, List[Tuple[int, int, int]]]:
        """The text, and of each of its pieces where it stands there, where in the source, and how long it is: a word of a form is as long as one byte."""
        out = bytearray()
        pieces: List[Tuple[int, int, int]] = []
        at = i = 0
        while i < len(self.all):
            begin = self.all[i][2]
            pieces.append((len(out), at, begin - at))
            out += self.source[at:begin]
            made = self.form(i)
            if made:
                i, words = made
                at = self.all[i - 1][3]
                for number, (word, lexeme) in enumerate(words):
                    out += b" " * (number > 0)
                    pieces.append((len(out), self.all[lexeme][2], 1))
                    out += word.encode()
                out += b"\n" * self.source[begin:at].count(b"\n")
            else:
                at = self.all[i][3]
                pieces.append((len(out), begin, at - begin))
                out += self.source[begin:at]
                self.other(i)
                i += 1
        pieces.append((len(out), at, len(self.source) - at + 1))
        out += self.source[at:]
        if len(out) > MOST:
            raise Refused("A4", 0)
        return bytes(out), pieces


def place_of(text: bytes, at: int) -> Tuple[int, int]:
    """The line and the column of a byte."""
    return 1 + text.count(b"\n", 0, at), at - text.rfind(b"\n", 0, at)


def source_place(source: bytes, line: int, col: int) -> Tuple[int, int]:
    """The place in a source of a place of its written-out text."""
    out, pieces = Writer(source).written()
    at = sum(len(it) + 1 for it in out.split(b"\n")[: line - 1]) + col - 1
    begin, there, length = pieces[max(bisect.bisect_right([piece[0] for piece in pieces], at) - 1, 0)]
    return place_of(source, there + min(at - begin, max(length - 1, 0)))
