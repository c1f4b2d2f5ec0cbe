"""How a tool fails: what `vechaqir.script` tells in a line, and the status with which the script ends."""
from typing import Sequence


class Fault(Exception):
    """Something outside is not as it must be; the sentences say what, each a line behind the script's name."""

    def __init__(self, *lines: str, status: int = 1) -> None:
        super().__init__("\n".join(lines))
        self.lines, self.status = lines, status


class Told(ValueError):
    """What the program told, in its own words; `words` are those of a command that is told the same, by which it can be explained."""

    def __init__(self, text: str, words: Sequence[str], status: int = 1) -> None:
        super().__init__(text)
        self.words, self.status = list(words), status
