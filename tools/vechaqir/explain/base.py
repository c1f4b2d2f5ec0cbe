"""What an explanation is, and the place that it speaks of."""
from dataclasses import dataclass, field
from typing import Iterable, List, NamedTuple, Optional

from ..language.lexemes import Place
from ..language.matching import View


class Why(NamedTuple):
    """What is wrong, in sentences; what to write instead; an example of it; the page with more; and why the rule is there, if it is not the reason of the code."""

    says: List[str]
    instead: str = ""
    example: List[str] = []
    page: str = ""
    reason: str = ""


@dataclass
class Case:
    """A refused source as it is explained: the index of the lexeme at the place, the code, the rest of the message, the top task where it is known, and the lexeme at
    the place in the text with its arrays written out, which names the element of an array."""

    view: View
    at: int
    code: str
    text: str
    top: Optional[str] = None
    written: str = ""
    place: Place = field(default_factory=lambda: Place(1, 1))

    def word(self, step: int = 0) -> str:
        return self.view.text(self.at + step)

    def line(self, at: int) -> int:
        """The line of a lexeme."""
        return self.view.source.place(self.view.words[at].begin).line


def listed(words: Iterable[str], last: str = "and") -> str:
    """Words in backticks as a list."""
    quoted = [f"`{it}`" for it in words]
    return f" {last} ".join([", ".join(quoted[:-1]), quoted[-1]]) if len(quoted) > 1 else "".join(quoted)


def few(words: Iterable[str], most: int = 8) -> str:
    """The first words of a list in backticks, and how many more there are."""
    every = list(words)
    more = f" and {len(every) - most} more" if len(every) > most else ""
    return ", ".join(f"`{it}`" for it in every[:most]) + more if more else listed(every)


def counted(number: int, word: str) -> str:
    return f"{number:,} {word}" + "s" * (number != 1)


def article(words: str) -> str:
    """Words in backticks with `a` or `an` before them."""
    return f"{'an' if words[:1].lower() in 'aeio' else 'a'} `{words}`"
