"""What ends a port or a part of it: a place, a reason, and a way round."""
from typing import NamedTuple


class Refused(Exception):
    """A construct that cannot be ported exactly: its offset in the expanded text, the reason, and what to write instead."""

    def __init__(self, at: int, why: str, instead: str = "") -> None:
        super().__init__(why)
        self.at, self.why, self.instead = at, why, instead


class Unusable(Exception):
    """A source of which nothing can be ported; the sentence says why."""


class Mark(NamedTuple):
    """A place that is left to change by hand: its file and line in the original, the reason, and what to write instead."""

    file: str
    line: int
    why: str
    instead: str

    def __str__(self) -> str:
        return f"{self.why}; instead: {self.instead}" if self.instead else self.why


class Note(NamedTuple):
    """What a pass does: the file and the line of the original, the construct, and what becomes of it."""

    file: str
    line: int
    construct: str
    becomes: str
