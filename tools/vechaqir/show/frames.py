"""The rows of a picture: the top task and each upper-level task are a frame, with rows of its own tasks and of the streams that pass them, and with the frames inside it.

A frame has a strip for its name above its rows. Over a column of tasks no arrow is in that strip, since streams change their height between columns only.
"""
from __future__ import annotations

from dataclasses import dataclass, field
from typing import Dict, List, Optional, Sequence, Tuple

from ..language.network import Instance

# The height of the strip for a name, the room inside a border, and the room between two rows.
STRIP, PAD, GAP = 26, 10, 22


@dataclass
class Stop:
    """Where a stream passes or touches a column: at a task, or alone. `y` is the upper edge of its row."""

    label: Optional[str]
    column: int
    height: float
    inputs: List[str] = field(default_factory=list)
    outputs: List[str] = field(default_factory=list)
    y: float = 0


@dataclass
class Frame:
    """The top task, whose path is empty, or an upper-level task. Its rows are from `top` on, and `height` high. It has something in the columns from `first` to `last`."""

    path: Tuple[str, ...]
    stops: List[Stop] = field(default_factory=list)
    frames: List[Frame] = field(default_factory=list)
    top: float = 0
    height: float = 0
    first: int = 0
    last: int = 0

    def lay(self, before: Dict[int, List[Stop]]) -> None:
        """Finds the rows, of which the first one is at height 0: the tasks of a column near to their writers, by `before`, and frames below what is in their columns."""
        floors = self._rows(before)
        for frame in self.frames:
            frame.lay(before)
            columns = range(frame.first, frame.last + 1)
            floor = max(floors.get(it, 0.0) for it in columns)
            frame.move(floor + STRIP)
            floors.update({it: floor + STRIP + frame.height + PAD + GAP for it in columns})
        self.height = max(floors.values(), default=GAP) - GAP
        self.first, self.last = min(floors, default=0), max(floors, default=0)

    def _rows(self, before: Dict[int, List[Stop]]) -> Dict[int, float]:
        """Puts the frame's own stops in rows, each column in the middle; returns where the next row of each column would be."""
        columns: Dict[int, List[Stop]] = {}
        for stop in self.stops:
            columns.setdefault(stop.column, []).append(stop)
        floors = {column: _stack(columns[column], before) for column in sorted(columns)}
        highest = max(floors.values(), default=0.0)
        for column, stops in columns.items():
            shift = (highest - floors[column]) / 2
            floors[column] += shift
            for stop in stops:
                stop.y += shift
        return floors

    def move(self, down: float) -> None:
        self.top += down
        for stop in self.stops:
            stop.y += down
        for frame in self.frames:
            frame.move(down)

    def left_pad(self) -> float:
        """The room between the left border and the tasks in the first column, in which there are the borders inside."""
        return PAD + max((it.left_pad() for it in self.frames if it.first == self.first), default=0.0)

    def right_pad(self) -> float:
        """The room between the tasks in the last column and the right border."""
        return PAD + max((it.right_pad() for it in self.frames if it.last == self.last), default=0.0)

    @property
    def upper(self) -> float:
        """The upper border."""
        return self.top - STRIP

    @property
    def lower(self) -> float:
        """The lower border."""
        return self.top + self.height + PAD


def _stack(rows: List[Stop], before: Dict[int, List[Stop]]) -> float:
    """Puts the rows of a column below each other; returns where the next one would be."""
    def wanted(stop: Stop) -> float:
        found = before.get(id(stop), [])
        return sum(it.y for it in found) / len(found) if found else 0.0

    rows.sort(key=wanted)
    y = 0.0
    for it in rows:
        it.y = y
        y += it.height + GAP
    return y


def frames_of(instances: Sequence[Instance]) -> Dict[Tuple[str, ...], Frame]:
    """A frame without stops for each path on which there are instances, and for all before it; that of the top has all others inside."""
    found: Dict[Tuple[str, ...], Frame] = {(): Frame(())}
    for instance in instances:
        for length in range(1, len(instance.path) + 1):
            path = instance.path[:length]
            if path not in found:
                found[path] = Frame(path)
                found[path[:-1]].frames.append(found[path])
    return found


def common(one: Tuple[str, ...], other: Tuple[str, ...]) -> Tuple[str, ...]:
    """The path of the innermost frame around two."""
    length = next((at for at, (here, there) in enumerate(zip(one, other)) if here != there), min(len(one), len(other)))
    return one[:length]
