"""A tolerant reader of TAPA sources: tasks with their parameters, streams and invokes, constants, and the flat network of a top task.

It takes what it recognises and leaves out the rest, so that tools can also speak of sources that the program refuses. What is right is what `tapa` says.
"""
from pathlib import Path
from typing import List, Optional, Sequence, Tuple

from . import kinds, lexemes
from .expressions import evaluated
from .kinds import Kind
from .lexemes import Lexeme, Lines, Place
from .network import Channel, Instance, Network, network
from .syntax import Argument, Invoke, Parameter, Source, Stream, Task

__all__ = ["Argument", "Channel", "Instance", "Invoke", "Kind", "Network", "Parameter", "Place", "Source", "Stream", "Task", "network", "parse", "read"]


def joined_words(words: Sequence[Lexeme]) -> str:
    """Lexemes as one text, with a blank where two words meet."""
    out = ""
    for word in words:
        meets = bool(out) and (out[-1].isalnum() or out[-1] == "_") and (word.text[0].isalnum() or word.text[0] == "_")
        out += " " * meets + word.text
    return out


class Reader:
    """Reads one source."""

    def __init__(self, text: bytes, path: Optional[str]) -> None:
        self.words = lexemes.words(lexemes.every(text))
        self.close = lexemes.partners(self.words)
        self.source = Source(path, text, self.words, Lines(text))

    def text(self, at: int) -> str:
        return self.words[at].text if 0 <= at < len(self.words) else ""

    def stands(self, at: int, *texts: str) -> bool:
        return self.text(at) == texts[0] and all(self.text(at + step) == text for step, text in enumerate(texts))

    def is_name(self, at: int) -> bool:
        return 0 <= at < len(self.words) and self.words[at].kind == "name"

    def place(self, at: int) -> Place:
        return self.source.place(self.words[at].begin)

    # ---- the file

    def read(self) -> Source:
        at = 0
        while at < len(self.words):
            at = self.constant(at) or self.task(at) or self.other(at)
        return self.source

    def other(self, at: int) -> int:
        """Leaves out what is neither a constant nor a task: a bracket with what is in it, or one lexeme."""
        return self.close.get(at, at) + 1

    def constant(self, at: int) -> Optional[int]:
        begin = at + 1 if self.text(at) == "static" else at
        if self.text(begin) not in ("const", "constexpr"):
            return None
        found = kinds.kind_at(self.words, begin + 1)
        if not found or not self.is_name(found[1]) or self.text(found[1] + 1) != "=":
            return None
        kind, name = found
        end = next((it for it in range(name, len(self.words)) if self.text(it) == ";"), len(self.words))
        value = evaluated(self.words[name + 2:end], self.source.values)
        if value and self.text(name) not in self.source.values:
            self.source.values[self.text(name)] = kinds.converted(value[0], kind), kind
            number = self.decimal(name + 2)
            if end == name + 3 and number is not None:
                self.source.counts[self.text(name)] = number
        return end + 1

    def decimal(self, at: int) -> Optional[int]:
        """The number of a decimal literal without suffix."""
        text = self.text(at)
        return lexemes.decimal(text) if text.isdecimal() and (text == "0" or text[0] != "0") else None

    def task(self, at: int) -> Optional[int]:
        if self.text(at) != "void" or not self.is_name(at + 1) or self.text(at + 2) != "(" or at + 2 not in self.close:
            return None
        head = self.close[at + 2]
        if self.text(head + 1) != "{":
            return None
        end = self.close.get(head + 1, len(self.words) - 1)
        body = range(head + 2, end)
        chain = next((it for it in body if self.stands(it, "tapa", "::", "task", "(")), None)
        task = Task(self.text(at + 1), self.parameters(at + 2, head), [], [], chain is not None, self.place(at + 1), (self.words[head + 1].begin, self.words[end].end))
        if chain is not None:
            task.streams = self.streams(body)
            task.invokes = self.invokes(body)
        self.source.tasks.setdefault(task.name, task)
        return end + 1

    # ---- parameters

    def parts(self, begin: int, end: int) -> List[Tuple[int, int]]:
        """The ends of what is parted by commas between two lexemes, those within brackets or `< >` of types left out."""
        found, start, at, angles = [], begin, begin, 0
        while at < end:
            text = self.text(at)
            if text == "<" and (self.is_name(at - 1) and self.stands(at - 2, "::") or angles):
                angles += 1
            elif text in (">", ">>") and angles:
                angles = max(0, angles - len(text))
            elif text == "," and angles == 0:
                found.append((start, at))
                start = at + 1
            at = min(self.close.get(at, at), end) + 1
        return found + [(start, end)] if start < end else found

    def parameters(self, opening: int, closing: int) -> List[Parameter]:
        found = [self.parameter(begin, end) for begin, end in self.parts(opening + 1, closing)]
        return [it for it in found if it]

    def parameter(self, begin: int, end: int) -> Optional[Parameter]:
        if end - begin < 2 or not self.is_name(end - 1):
            return None
        is_reference = self.text(end - 2) == "&"
        is_const = self.text(begin) == "const"
        start = begin + is_const
        direction = "scalar"
        if self.stands(start, "tapa", "::") and self.text(start + 3) == "<":
            direction = self.text(start + 2)
            start += 4
            is_const = self.text(start) == "const"
            start += is_const
        kind = self.kind(start, end - 1)
        return Parameter(self.text(end - 1), direction, kind, is_const, self.place(end - 1), is_reference)

    def kind(self, begin: int, end: int) -> Kind:
        """The kind that is written from a lexeme on; of one that the language has not, the words up to a `,` or `>` or the end."""
        found = kinds.kind_at(self.words, begin)
        if found:
            return found[0]
        stop, depth = begin, 0
        while stop < end and (depth > 0 or self.text(stop) not in (",", ">", "&")):
            depth += 1 if self.text(stop) == "<" else -len(self.text(stop)) if self.text(stop) in (">", ">>") else 0
            stop += 1
        word = joined_words(self.words[begin:stop])
        return Kind(0, False, word[:len(word) + min(depth, 0)])

    # ---- upper-level tasks

    def number(self, begin: int, end: int) -> Optional[int]:
        value = evaluated(self.words[begin:end], self.source.values)
        return value[0] if value else None

    def count(self, begin: int, end: int) -> Optional[int]:
        """A count: one decimal literal, or a constant that is one."""
        if end != begin + 1:
            return None
        number = self.decimal(begin)
        return self.source.counts.get(self.text(begin)) if number is None else number

    def angle(self, opening: int, end: int) -> Optional[int]:
        """The `>` that closes a `<` of a type."""
        depth, at = 0, opening
        while at < end:
            text = self.text(at)
            depth += text == "<"
            depth -= len(text) if text in (">", ">>") else 0
            if depth <= 0:
                return at
            at = self.close.get(at, at) + 1
        return None

    def streams(self, body: Sequence[int]) -> List[Stream]:
        found: List[Stream] = []
        for at in body:
            if self.stands(at, "tapa", "::") and self.text(at + 2) in ("stream", "streams") and self.text(at + 3) == "<":
                closing = self.angle(at + 3, body[-1] + 1)
                if closing is not None:
                    found += self.declared(at, closing, body[-1] + 1)
        return found

    def declared(self, at: int, closing: int, end: int) -> List[Stream]:
        """The streams that one declaration has, from its `tapa` on."""
        is_array = self.text(at + 2) == "streams"
        parts = self.parts(at + 4, closing)
        kind = self.kind(at + 4, closing)
        numbers = parts[1:]
        count = self.count(*numbers.pop(0)) if is_array and numbers else None
        depth = (self.number(*numbers[0]) if numbers else 2)
        found = []
        name = closing + 1
        while name < end and self.is_name(name):
            found.append(Stream(self.text(name), kind, depth, count, self.place(name), is_array))
            name += 1
            if self.text(name) in ("(", "[", "{"):
                name = self.close.get(name, name) + 1
            if self.text(name) != ",":
                break
            name += 1
        return found

    def invokes(self, body: Sequence[int]) -> List[Invoke]:
        found = [self.invoke(at) for at in body if self.text(at) == "invoke" and self.text(at - 1) == "."]
        return [it for it in found if it]

    def invoke(self, at: int) -> Optional[Invoke]:
        opening, mode, count = at + 1, "", 1
        if self.text(opening) == "<":
            closing = self.angle(opening, len(self.words))
            if closing is None:
                return None
            parts = self.parts(opening + 1, closing)
            if parts and self.stands(parts[0][0], "tapa", "::"):
                mode = self.text(parts[0][0] + 2)
            count = (self.count(*parts[1]) or 0) if len(parts) > 1 else 1
            opening = closing + 1
        if self.text(opening) != "(" or opening not in self.close:
            return None
        arguments = self.parts(opening + 1, self.close[opening])
        if not arguments:
            return None
        (begin, end), rest = arguments[0], arguments[1:]
        texts = [Argument(joined_words(self.words[first:last]), self.place(first)) for first, last in rest]
        return Invoke(joined_words(self.words[begin:end]), mode == "detach", count, texts, self.place(begin), mode)


def parse(text: bytes, path: Optional[str] = None) -> Source:
    """What a source declares; it never refuses."""
    return Reader(text, path).read()


def read(path: str) -> Source:
    """What the source of a file declares; OSError where it can't be read."""
    return parse(Path(path).read_bytes(), path)
