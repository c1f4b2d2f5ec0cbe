"""The words of a call of `tapa`, and the files that they name."""
import os
from typing import List, Optional

from . import usage

MOST_BYTES = 40_000_000


class Command:
    """The words with which `tapa` was called, where they are known, and the files that they name."""

    def __init__(self, words: Optional[List[str]] = None) -> None:
        self.words = words
        known = usage.commands().get(words[0]) if words else None
        self.plain = usage.options(known, words[1:])[1] if known and words else []
        self.names = known.words + known.more if known else []
        named = dict(zip(self.names, self.plain))
        self.name = words[0] if words else ""
        self.source = named.get("SRC")
        self.top = named.get("TOP")
        self.data = named.get("DATA")
        self.device = named.get("DEV") or self.option("--device")

    def option(self, name: str) -> Optional[str]:
        for at, word in enumerate(self.words or []):
            if word.startswith(name + "="):
                return word[len(name) + 1:]
            if word == name and at + 1 < len(self.words or []):
                return (self.words or [])[at + 1]
        return None


def contents(path: Optional[str]) -> Optional[bytes]:
    """The bytes of a file that can be read again; None where it can't."""
    try:
        if path is None or not os.path.isfile(path):
            return None
        with open(path, "rb") as file:
            return file.read(MOST_BYTES)
    except OSError:
        return None
