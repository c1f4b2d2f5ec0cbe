"""Waveforms of a dump as the lines of an SVG file that is as wide as a page: nets by hierarchical names, or how full each stream is."""
from __future__ import annotations

from html import escape
from typing import Dict, Iterator, List, NamedTuple, Optional, Sequence, Tuple

from ..host.dump import Dump, Value
from .svg import QUIET, cut, cut_name, line, picture, text, text_width

# The width of a picture, the height of a row and of a wave in it, the most nets that are drawn unasked, and the widest column of names.
WIDTH, ROW, HIGH, MOST, NAMES = 960, 26, 14, 40, 260
TOP, RIGHT, SIZE = 34, 76, 11
STROKE, FILL, UNKNOWN = "#2a5d84", "#8fb4d2", "#c0392b"


class NoNet(LookupError):
    """A net that the dump has not, or whose name several nets have; the words say which."""


class Run(NamedTuple):
    """A net's value from a cycle on, up to the one behind it; None where a bit of it is unknown."""

    first: int
    behind: int
    value: Value


class Row(NamedTuple):
    """A row of a picture: what stands before it, its bits, its runs, and the texts whose numbers its values are, if any."""

    name: str
    width: int
    runs: List[Run]
    texts: Sequence[str] = ()


def found_name(dump: Dump, asked: str) -> str:
    """The hierarchical name of a net: as it is, in the top module, or as the only one that ends with what is asked. Raises NoNet."""
    if asked in dump.nets:
        return asked
    if dump.has(asked):
        return dump.name(asked)
    ends = [name for name in dump.nets if name.endswith(f".{asked}")]
    if len(ends) == 1:
        return ends[0]
    raise NoNet(f"{dump.path}: no net {asked}" if not ends else f"{dump.path}: {len(ends)} nets are named {asked}: {', '.join(ends[:3])}{' ..' if len(ends) > 3 else ''}")


def rows_of_nets(dump: Dump, names: Sequence[str], first: int, last: Optional[int]) -> Tuple[List[Row], int]:
    """The values of nets from a cycle to another, and the last cycle that there is. Names are shown as short as tells them apart."""
    runs: Dict[str, List[Run]] = {name: [] for name in names}
    at = first
    for cycle, values in dump.cycles(names):
        if last is not None and cycle > last:
            break
        if cycle < first:
            continue
        at = cycle
        for name in names:
            _go_on(runs[name], cycle, values[name])
    texts = [it.replace("_", " ") for it in dump.texts]
    return [Row(_short(name, dump), dump.nets[name].width, runs[name], () if dump.nets[name].width else texts) for name in names], at


def _go_on(runs: List[Run], cycle: int, value: Value) -> None:
    """Adds a cycle to the last run, or begins another one."""
    if runs and runs[-1].value == value:
        runs[-1] = runs[-1]._replace(behind=cycle + 1)
    else:
        runs.append(Run(cycle, cycle + 1, value))


def _short(name: str, dump: Dump) -> str:
    """A name without the top module, which all nets of a dump share."""
    return name[len(dump.top) + 1:] if name.startswith(dump.top + ".") else name


def streams_of(dump: Dump) -> List[str]:
    """The labels of the streams whose four nets are in the dump's top module."""
    front = f"{dump.top}.s_"
    labels = [name[len(front):-3] for name in dump.nets if name.startswith(front) and name.endswith("_wr")]
    return [label for label in labels if all(dump.has(f"s_{label}_{end}") for end in ("rdy", "has", "take"))]


def rows_of_fills(dump: Dump, first: int, last: Optional[int]) -> Tuple[List[Row], int]:
    """How many tokens each stream holds before each cycle, in its FIFO or on their way to it: those that were written less those that were taken."""
    labels = streams_of(dump)
    nets = {label: [dump.name(f"s_{label}_{end}") for end in ("wr", "rdy", "has", "take")] for label in labels}
    fill = {label: 0 for label in labels}
    rows = {label: Row(label, 0, []) for label in labels}
    at = first
    for cycle, values in dump.cycles([net for group in nets.values() for net in group]):
        if last is not None and cycle > last:
            break
        for label in labels:
            if cycle >= first:
                at = cycle
                _go_on(rows[label].runs, cycle, fill[label])
            wr, rdy, has, take = (values[net] or 0 for net in nets[label])
            fill[label] += ((wr & rdy) - (has & take)) if cycle > 0 else 0
    return list(rows.values()), at


# ---- drawing


class Scale:
    """Where cycles stand in a picture."""

    def __init__(self, rows: Sequence[Row], first: int, last: int) -> None:
        self.left = min(max([text_width(it.name, SIZE) for it in rows] or [0]) + 20, NAMES)
        self.first, self.last = first, last
        self.step = min((WIDTH - self.left - RIGHT) / max(last + 1 - first, 1), 40)

    def x(self, cycle: int) -> float:
        return self.left + (cycle - self.first) * self.step


def drawing(rows: Sequence[Row], first: int, last: int, is_fill: bool) -> Iterator[str]:
    """The lines of the SVG file."""
    scale = Scale(rows, first, last)
    yield from picture(WIDTH, TOP + ROW * len(rows) + 10, _parts(rows, scale, is_fill))


def _parts(rows: Sequence[Row], scale: Scale, is_fill: bool) -> Iterator[str]:
    yield from _axis(scale, len(rows))
    for number, row in enumerate(rows):
        y = TOP + ROW * number
        yield text(scale.left - 8, y + 11, cut_name(row.name, SIZE, scale.left - 16), SIZE, "end")
        if is_fill:
            most = max([it.value or 0 for it in row.runs] or [0])
            yield from _fill(row, most, y, scale)
            yield text(scale.x(scale.last + 1) + 8, y + 11, f"most {most}", 10, colour=QUIET)
        elif row.width == 1:
            yield from _bit(row, y, scale)
        else:
            yield from _word(row, y, scale)


def _axis(scale: Scale, count: int) -> Iterator[str]:
    """A line for each round number of cycles, as many as their numbers have room."""
    step = next(s * 10**e for e in range(12) for s in (1, 2, 5) if scale.step * s * 10**e >= 56)
    for cycle in range(scale.first + -scale.first % step, scale.last + 2, step):
        yield line(scale.x(cycle), 26, scale.x(cycle), TOP + ROW * count, "#dde2e7")
        yield text(scale.x(cycle), 20, str(cycle), 10, "middle", colour=QUIET)


def _bit(row: Row, y: float, scale: Scale) -> Iterator[str]:
    """A line that is high or low, in pieces between unknown values, which are hatched."""
    points: List[str] = []
    for run in row.runs:
        if run.value is None:
            yield from _line_of(points)
            points = []
            yield from _unknown(run, y, scale)
        else:
            points += [f"{scale.x(cycle):.1f},{y + HIGH * (1 - run.value):.1f}" for cycle in (run.first, run.behind)]
    yield from _line_of(points)


def _line_of(points: List[str]) -> Iterator[str]:
    if points:
        yield f'<polyline points="{" ".join(points)}" fill="none" stroke="{STROKE}" stroke-width="1.2"/>'


def _unknown(run: Run, y: float, scale: Scale) -> Iterator[str]:
    x, width = scale.x(run.first), scale.x(run.behind) - scale.x(run.first)
    yield f'<rect x="{x:.1f}" y="{y:.1f}" width="{width:.1f}" height="{HIGH}" fill="{UNKNOWN}" fill-opacity="0.18" stroke="{UNKNOWN}"/>'
    if width > 14:
        yield text(x + width / 2, y + 11, "x", 10, "middle", colour=UNKNOWN)


def _word(row: Row, y: float, scale: Scale) -> Iterator[str]:
    """A lozenge for each value, with its number where there is room, or with its text or the front of it."""
    for run in row.runs:
        if run.value is None:
            yield from _unknown(run, y, scale)
            continue
        x, z = scale.x(run.first), scale.x(run.behind)
        slant, middle = min(2.0, (z - x) / 2), y + HIGH / 2
        shape = f"{x:.1f},{middle} {x + slant:.1f},{y} {z - slant:.1f},{y} {z:.1f},{middle} {z - slant:.1f},{y + HIGH} {x + slant:.1f},{y + HIGH}"
        shown = row.texts[run.value] if row.texts else str(run.value)
        yield f'<polygon points="{shape}" fill="#eef3f7" stroke="{STROKE}" stroke-width="0.8"><title>{escape(shown)}</title></polygon>'
        shown = cut(shown, 10, z - x - 6) if row.texts else shown
        if len(shown) > (4 if shown.endswith("..") else 0) and text_width(shown, 10) < z - x - 6:
            yield text((x + z) / 2, y + 11, shown, 10, "middle")


def _fill(row: Row, most: int, y: float, scale: Scale) -> Iterator[str]:
    points = [f"{scale.x(scale.first):.1f},{y + HIGH}"]
    for run in row.runs:
        height = y + HIGH - HIGH * (run.value or 0) / max(most, 1)
        points += [f"{scale.x(run.first):.1f},{height:.1f}", f"{scale.x(run.behind):.1f},{height:.1f}"]
    points.append(f"{scale.x(scale.last + 1):.1f},{y + HIGH}")
    yield f'<polygon points="{" ".join(points)}" fill="{FILL}" stroke="none"/>'
