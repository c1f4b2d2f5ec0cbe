"""A text that is made of parts of files, in which each character knows its line in the original."""
import bisect
from typing import Dict, List, NamedTuple, Sequence, Tuple


class Edit(NamedTuple):
    """A part of a text, by its first offset and the one after it, and what takes its place."""

    begin: int
    end: int
    text: str


class Part(NamedTuple):
    """Where a run of characters comes from: its offset in the text, the file, the offset there, and whether each further character is one further there too."""

    begin: int
    file: str
    at: int
    is_copy: bool


class Lines:
    """The line of each offset of a file."""

    def __init__(self, text: str) -> None:
        self.starts = [0] + [at + 1 for at, it in enumerate(text) if it == "\n"]

    def line(self, offset: int) -> int:
        return bisect.bisect_right(self.starts, max(offset, 0))


class Mapped:
    """A text with its parts."""

    def __init__(self, text: str, parts: Sequence[Part], lines: Dict[str, Lines]) -> None:
        self.text, self.parts, self.lines = text, list(parts), lines
        self.begins = [it.begin for it in self.parts]

    @staticmethod
    def of_file(file: str, text: str) -> "Mapped":
        return Mapped(text, [Part(0, file, 0, True)], {file: Lines(text)})

    def origin(self, offset: int) -> Tuple[str, int]:
        """The file and the offset there of an offset."""
        if not self.parts:
            return "", 0
        it = self.parts[max(0, bisect.bisect_right(self.begins, max(offset, 0)) - 1)]
        return it.file, it.at + (offset - it.begin if it.is_copy else 0)

    def place(self, offset: int) -> Tuple[str, int]:
        """The file and the line of an offset."""
        file, at = self.origin(offset)
        return file, self.lines[file].line(at) if file in self.lines else 0

    def applied(self, edits: Sequence[Edit], brought: "Dict[int, Mapped]" = {}) -> "Mapped":
        """The text with its edits; of two that overlap the first counts. What an edit puts in has the place of the edit, or its own parts where it is `brought` from another file."""
        out: List[str] = []
        parts: List[Part] = []
        lines = dict(self.lines)
        at = size = 0
        for number, edit in sorted(enumerate(edits), key=lambda it: (it[1].begin, it[1].end, it[0])):
            if edit.begin < at:
                continue
            size = self._copied(at, edit.begin, size, out, parts)
            other = brought.get(number)
            text = other.text if other is not None else edit.text
            if other is not None:
                parts += [Part(it.begin + size, it.file, it.at, it.is_copy) for it in other.parts]
                lines.update(other.lines)
            elif text:
                file, origin = self.origin(edit.begin)
                parts.append(Part(size, file, origin, False))
            out.append(text)
            size += len(text)
            at = edit.end
        self._copied(at, len(self.text), size, out, parts)
        return Mapped("".join(out), parts, lines)

    def _copied(self, begin: int, end: int, size: int, out: List[str], parts: List[Part]) -> int:
        """Copies a run with its parts; the size of the text after it."""
        if begin >= end:
            return size
        first = max(0, bisect.bisect_right(self.begins, begin) - 1)
        for it in self.parts[first:bisect.bisect_left(self.begins, end)]:
            start = max(begin, it.begin)
            parts.append(Part(size + start - begin, it.file, it.at + (start - it.begin if it.is_copy else 0), it.is_copy))
        out.append(self.text[begin:end])
        return size + end - begin
