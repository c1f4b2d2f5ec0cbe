"""A profile that lies beside a source: `F.profile.json` beside `F.cpp`, as `tools/profile.py F.cpp TOP DATA --json > F.profile.json` writes it."""
import json
import os
from typing import Any, Dict, List, NamedTuple, Optional, Tuple

from .protocol import optional

MOST_BYTES = 100_000_000


class Profile(NamedTuple):
    """What a profile file says: its name, whether it is as new as the source, and its members."""

    name: str
    is_current: bool
    members: Dict[str, Any]

    def pair(self, *path: str) -> Optional[Tuple[int, int]]:
        """Ticks and waits of a line."""
        found = optional(self.members, *path)
        is_pair = isinstance(found, list) and len(found) == 2 and all(isinstance(it, int) for it in found)
        return (found[0], found[1]) if is_pair and found else None

    def numbers(self, *path: str) -> Dict[str, int]:
        """The members of an object that are numbers."""
        found = optional(self.members, *path)
        return {name: it for name, it in found.items() if isinstance(it, int)} if isinstance(found, dict) else {}


class Profiles:
    """The profiles that were read, each until its file changes."""

    def __init__(self) -> None:
        self.kept: Dict[str, Tuple[int, Dict[str, Any]]] = {}

    def of(self, source: Optional[str]) -> Optional[Profile]:
        """The profile beside a source; None if there is none that can be read."""
        if not source:
            return None
        path = os.path.splitext(source)[0] + ".profile.json"
        try:
            made = os.stat(path)
            if made.st_size > MOST_BYTES:
                return None
            if path not in self.kept or self.kept[path][0] != made.st_mtime_ns:
                with open(path, encoding="utf-8") as file:
                    members = json.load(file)
                self.kept[path] = made.st_mtime_ns, members if isinstance(members, dict) else {}
            return Profile(os.path.basename(path), made.st_mtime_ns >= os.stat(source).st_mtime_ns, self.kept[path][1])
        except (OSError, ValueError, RecursionError):
            return None


def of_line(found: Optional[Profile], line: int, is_saved: bool) -> List[str]:
    """What a profile says of a line, counted from 1; nothing if it was made of another text."""
    if found is None:
        return []
    if not found.is_current or not is_saved:
        return [f"`{found.name}` was made of an older text."] if found.pair("lines", str(line)) else []
    cost = found.pair("lines", str(line))
    return [f"Line {line}: {sum(cost):,} cycles of all instances together, {cost[0]:,} in ticks and {cost[1]:,} waiting (`{found.name}`)."] if cost else []


def of_stream(found: Optional[Profile], name: str, is_saved: bool) -> List[str]:
    """What a profile says of a stream of the flat network."""
    numbers = found.numbers("streams", name) if found and found.is_current and is_saved else {}
    if not numbers:
        return []
    held = f"held its writer for {numbers.get('held_writer', 0):,} cycles and its reader for {numbers.get('held_reader', 0):,}"
    return [f"`{name}` carried {numbers.get('tokens', 0):,} tokens, held at most {numbers.get('most', 0):,}, {held}."]
