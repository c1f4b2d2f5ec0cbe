"""The picture of a plan: the slots with how full they are, the tasks in them, and the streams over each border as a bundle with its bits."""
from __future__ import annotations

import math
from collections import Counter
from dataclasses import dataclass
from typing import Dict, Iterator, List, Sequence, Tuple

from ..host.device import RESOURCES, Amounts, Device, SlotPlace
from ..host.estimate import task_of
from ..host.plan import Plan
from ..host.slot_groups import Link
from . import svg

# Slots and the gaps between them, in which the bundles stand; what is inside a slot keeps this distance to its frame.
WIDTH, ACROSS, DOWN, MARGIN, INSIDE = 300, 130, 64, 36, 10
BAR, LABELLED, ROW = 14, 12, 20
# How high a row of empty slots is.
EMPTY = 24
# The sides of the small boxes of slots with many tasks, the largest that does is taken; and how high they may stand.
SIDES, HIGH = (22, 18, 15, 12, 10, 8), 170
# The most streams that are told one by one below.
TOLD = 16
FULL, OVERFULL, SHUT = "#4d9a7d", "#d5544f", "#dddddd"
COLOURS = ("#8fb8de", "#f2b279", "#9fd0a3", "#e3a0b4", "#c3b1e1", "#d8c77b", "#86cfc9", "#c9a58a", "#b3c47a", "#a9b4c2", "#e8c1a0", "#7fa8a0")


@dataclass
class Bundle:
    """The streams over a border in one direction."""

    bits: int = 0
    streams: int = 0


@dataclass
class Scene:
    """What is drawn, with the tasks of each slot and the colour of each leaf task."""

    plan: Plan
    device: Device
    links: Sequence[Link]

    def __post_init__(self) -> None:
        self.inside: Dict[SlotPlace, List[str]] = {place: [] for place in self.plan.slots}
        for label, place in self.plan.tasks.items():
            self.inside[place].append(label)
        self.counts = Counter(map(task_of, self.plan.tasks))
        self.colour = {task: COLOURS[at % len(COLOURS)] for at, task in enumerate(self.counts)}
        self.most = max(map(len, self.inside.values()))
        self.resources = [at for at in range(len(RESOURCES)) if any(slot[at] for slot in self.device.slots)]
        self.side = next((side for side in SIDES if self._high(self.most, side) <= HIGH), SIDES[-1])
        self.top = 12 + BAR * len(self.resources)
        # a row of slots is as high as its fullest slot needs
        self.heights = [self.top + max(ROW, self._tasks(row)) + INSIDE if self._tasks(row) else EMPTY for row in range(self.device.rows)]

    def _tasks(self, row: int) -> int:
        """How high the boxes of the fullest slot of a row stand."""
        most = max((len(labels) for place, labels in self.inside.items() if place[0] == row), default=0)
        return (most + 1) // 2 * ROW if self.most <= LABELLED else self._high(most, self.side)

    def _high(self, count: int, side: int) -> int:
        """How high small boxes stand."""
        return math.ceil(count / self.in_row(side)) * (side + 3)

    def height(self, place: SlotPlace) -> float:
        return self.heights[place[0]]

    def in_row(self, side: int) -> int:
        """How many small boxes stand in a row."""
        return (WIDTH - 2 * INSIDE + 3) // (side + 3)

    def corner(self, place: SlotPlace) -> Tuple[float, float]:
        """The upper left corner of a slot."""
        return MARGIN + place[1] * (WIDTH + ACROSS), MARGIN + sum(it + DOWN for it in self.heights[:place[0]])


def bundles(plan: Plan, links: Sequence[Link]) -> Dict[Tuple[SlotPlace, SlotPlace], Bundle]:
    """The bundle from a slot to a neighbour. A stream goes along its writer's column to its reader's row, and then along that row; so the bits of all
    bundles are the cost of the plan."""
    found: Dict[Tuple[SlotPlace, SlotPlace], Bundle] = {}
    for link in links:
        (row, col), (to_row, to_col) = plan.tasks[link.writer], plan.tasks[link.reader]
        way = [(at, col) for at in steps(row, to_row)] + [(to_row, at) for at in steps(col, to_col)[1:]]
        for here, there in zip(way, way[1:]):
            bundle = found.setdefault((here, there), Bundle())
            bundle.bits += link.width
            bundle.streams += 1
    return found


def steps(one: int, other: int) -> List[int]:
    """The numbers from one to another, both among them."""
    return list(range(one, other + 1)) if one <= other else list(range(one, other - 1, -1))


def bar(x: float, y: float, name: str, use: int, has: int, percent: int) -> Iterator[str]:
    """How much of a resource is used, with a mark where a plan must stop."""
    wide = WIDTH - 100
    colour = FULL if use * 100 <= has * percent else OVERFULL
    yield svg.text(x + INSIDE, y + 9, name, 10)
    yield svg.box(x + 50, y + 1, wide, 8, "#e8ecef", "none", 1)
    yield svg.box(x + 50, y + 1, wide * min(use / has, 1) if has else 0, 8, colour, "none", 1)
    yield svg.line(x + 50 + wide * percent / 100, y - 1, x + 50 + wide * percent / 100, y + 11, OVERFULL)
    yield svg.text(x + WIDTH - INSIDE, y + 9, f"{100 * use // has}%" if has else "none", 10, "end")


def labelled(x: float, y: float, labels: Sequence[str], scene: Scene) -> Iterator[str]:
    """A few tasks as boxes with their labels, in two columns."""
    wide = (WIDTH - 2 * INSIDE - 6) / 2
    for number, label in enumerate(labels):
        left, top = x + INSIDE + number % 2 * (wide + 6), y + number // 2 * ROW
        yield svg.box(left, top, wide, ROW - 3, scene.colour[task_of(label)])
        yield svg.text(left + wide / 2, top + 12, svg.cut_name(label, 11, wide - 6), 11, "middle")


def small(x: float, y: float, labels: Sequence[str], scene: Scene) -> Iterator[str]:
    """Many tasks as small boxes in the colours of their leaf tasks; a viewer shows the label of the one under the pointer."""
    step, many = scene.side + 3, scene.in_row(scene.side)
    for number, label in enumerate(sorted(labels, key=lambda it: (list(scene.colour).index(task_of(it)), labels.index(it)))):
        left, top = x + INSIDE + number % many * step, y + number // many * step
        yield svg.box(left, top, scene.side, scene.side, scene.colour[task_of(label)], svg.LINE, 1).replace("/>", f"><title>{label}</title></rect>")


def slot(scene: Scene, place: SlotPlace, used: Amounts) -> Iterator[str]:
    """A slot: its name, its bars, its tasks."""
    (x, y), number = scene.corner(place), scene.device.number(place)
    is_shut, labels = scene.device.is_forbidden(number), scene.inside[place]
    tasks = "forbidden" if is_shut else "1 task" if len(labels) == 1 else f"{len(labels)} tasks"
    yield svg.box(x, y, WIDTH, scene.height(place), SHUT if is_shut else svg.PAPER)
    yield svg.text(x + 2, y - 6, f"slot {place[0]} {place[1]}", 12, is_bold=True)
    yield svg.text(x + WIDTH - 2, y - 6, tasks, 11, "end", colour=svg.QUIET)
    for at, resource in enumerate(scene.resources if scene.height(place) > EMPTY else []):
        yield from bar(x, y + 8 + BAR * at, RESOURCES[resource], used[resource], scene.device.slots[number][resource], scene.device.percent)
    yield from (labelled if scene.most <= LABELLED else small)(x, y + scene.top, labels, scene)


def arrow(x: float, y: float, to_x: float, to_y: float, bits: int) -> str:
    """A straight arrow, the thicker the more bits; along a row or a column."""
    half = min(7.0, 0.8 + 0.7 * math.log2(1 + bits / 16))
    length = math.hypot(to_x - x, to_y - y)
    along, beside = ((to_x - x) / length, (to_y - y) / length), (-(to_y - y) / length, (to_x - x) / length)
    outline = [(0, half), (length - 10, half), (length - 10, half + 4), (length, 0), (length - 10, -half - 4), (length - 10, -half), (0, -half)]
    points = " ".join(f"{x + far * along[0] + off * beside[0]:.1f},{y + far * along[1] + off * beside[1]:.1f}" for far, off in outline)
    return f'<polygon points="{points}" fill="{svg.LINE}"/>'


def border(scene: Scene, here: SlotPlace, there: SlotPlace, bundle: Bundle) -> Iterator[str]:
    """The arrow and the words of a bundle, in the gap between its slots."""
    (x, y), (to_x, to_y) = scene.corner(here), scene.corner(there)
    bits, streams = f"{bundle.bits} bits", "1 stream" if bundle.streams == 1 else f"{bundle.streams} streams"
    if here[0] == there[0]:
        left, right = (x + WIDTH, to_x) if x < to_x else (x, to_x + WIDTH)
        middle = y + scene.height(here) / 2 + (-30 if x < to_x else 30)
        yield arrow(left + math.copysign(3, right - left), middle, right - math.copysign(3, right - left), middle, bundle.bits)
        yield svg.text((left + right) / 2, middle - 14, svg.cut(bits, 11, ACROSS - 12), 11, "middle")
        yield svg.text((left + right) / 2, middle + 22, svg.cut(streams, 10, ACROSS - 12), 10, "middle", colour=svg.QUIET)
        return
    upper, lower = (y + scene.height(here), to_y) if y < to_y else (y, to_y + scene.height(there))
    middle = x + (WIDTH / 4 if y < to_y else 3 * WIDTH / 4) - 30
    above = min(y, to_y) + scene.height(here if y < to_y else there)
    yield arrow(middle, upper + math.copysign(3 if y < to_y else 20, lower - upper), middle, lower - math.copysign(20 if y < to_y else 3, lower - upper), bundle.bits)
    yield svg.text(middle + 16, above + 18, svg.cut(bits, 11, WIDTH / 2 - 40), 11)
    yield svg.text(middle + 16, above + 32, svg.cut(streams, 10, WIDTH / 2 - 40), 10, colour=svg.QUIET)


def words(scene: Scene, width: float) -> List[str]:
    """The lines below the slots: streams with registers, or how many there are, and the sums."""
    crossing, plan = scene.plan.crossing(), scene.plan
    lines = [f"{it.name}: {it.width} bits, {it.latency} registers at borders, {it.balance} for balance" for it in crossing]
    if len(lines) > TOLD:
        bits = sum(it.width * it.latency for it in crossing)
        lines = [f"{len(lines)} of {len(plan.streams)} streams have registers: {bits} bits of them at borders"]
    return [svg.cut(line, 12, width) for line in [*lines, f"cost {plan.cost}, registers {plan.registers} for balance, dual {plan.dual}"]]


def legend(scene: Scene, y: float, width: float) -> Tuple[List[str], float]:
    """The colours of the leaf tasks, where boxes have no labels; and the height below."""
    parts: List[str] = []
    x = float(MARGIN)
    if scene.most <= LABELLED:
        return parts, y
    for task, count in scene.counts.items():
        label = svg.cut(f"{task} ({count})", 11, width - 2 * MARGIN - 20)
        if x > MARGIN and x + 36 + svg.text_width(label, 11) > width - MARGIN:
            x, y = float(MARGIN), y + 20
        parts += [svg.box(x, y - 10, 12, 12, scene.colour[task], svg.LINE, 1), svg.text(x + 17, y, label, 11)]
        x += 36 + svg.text_width(label, 11)
    return parts, y + 24


def drawing(plan: Plan, device: Device, links: Sequence[Link]) -> Iterator[str]:
    """The lines of the SVG file of a plan on its device. Without links, as where no source is known, no bundle is drawn."""
    scene = Scene(plan, device, links)
    width = max(2 * MARGIN + device.cols * WIDTH + (device.cols - 1) * ACROSS, 2 * MARGIN + 480)
    bottom = MARGIN + sum(it + DOWN for it in scene.heights) - DOWN + 28
    parts = [part for place, used in sorted(plan.slots.items()) for part in slot(scene, place, used)]
    parts += [part for (here, there), bundle in sorted(bundles(plan, links).items()) for part in border(scene, here, there, bundle)]
    shown, y = legend(scene, bottom, width)
    parts += shown
    for line in words(scene, width - 2 * MARGIN):
        parts.append(svg.text(MARGIN, y, line))
        y += 18
    yield from svg.picture(width, y + 4, parts)
