"""Where the tasks, streams and memories of a network stand in a picture: tasks in columns by how far they are from those that read nothing, streams from left to right.

Each stream leaves its writer and reaches its reader at a height of its own, its label stands over its first part, and where it passes a column it has a row of its own there. So
no label lies over another or over a box. An upper-level task has rows of its own, around which its box is drawn, with its name above them.
"""
from __future__ import annotations

from dataclasses import dataclass, field
from typing import Dict, List, NamedTuple, Optional, Sequence, Tuple

from ..language.network import Channel, Instance, Network
from .frames import GAP, Stop, common, frames_of
from .layers import columns
from .svg import cut_name, text_width

SIZE, SMALL = 12, 10
PORT, NODE, MARGIN, PILL, TITLE = 30, 34, 26, 18, 20
TURN = 60
# The most width of the name of an upper-level task, and how far its base line is below the border.
NAME, NAME_DOWN = 160, 14


class Box(NamedTuple):
    """A box: `kind` is `task`, `memory` or `upper`, `name` what it stands for, `label` what is written in it: in the middle, or for an upper-level task from `label_x` on, with its base line at `label_y`."""

    kind: str
    name: str
    label: str
    x: float
    y: float
    width: float
    height: float
    label_x: float = 0
    label_y: float = 0


class Wire(NamedTuple):
    """A stream: the way of its line as SVG has it, its label, a second line of facts, and where the label begins: `label_y` is the height of the line that it stands over."""

    name: str
    way: str
    label: str
    facts: str
    label_x: float
    label_y: float


@dataclass
class Picture:
    """Boxes and wires, those behind others first, and the size of the whole."""

    width: float = 0
    height: float = 0
    boxes: List[Box] = field(default_factory=list)
    wires: List[Wire] = field(default_factory=list)


class Layout:
    """Finds the places. `facts` has a second line of text for a stream."""

    def __init__(self, network: Network, facts: Dict[str, str]) -> None:
        self.network, self.facts = network, facts
        self.streams = [it for it in network.streams if it.writer and it.reader]
        self.columns = columns(network.instances, self.streams)
        self.by_label = {it.label: it for it in network.instances}
        self.frames = frames_of(list(self.by_label.values()))
        self.stops = {it.label: Stop(it.label, self.columns[it.label], 0) for it in network.instances}
        self.width = self._widths()
        # of each stream that goes forward the stops on its way, and those that lead back
        self.ways: Dict[str, List[Stop]] = {}
        self.back: List[Channel] = []
        self._route()
        self._order()

    # ---- ways

    def _route(self) -> None:
        for stream in self.streams:
            writer, reader = self.stops[stream.writer or ""], self.stops[stream.reader or ""]
            writer.outputs.append(stream.name)
            reader.inputs.append(stream.name)
            if reader.column <= writer.column:
                self.back.append(stream)
                continue
            between = [Stop(None, column, 14) for column in range(writer.column + 1, reader.column)]
            self.ways[stream.name] = [writer, *between, reader]
        for instance in self.network.instances:
            stop = self.stops[instance.label]
            stop.height = max(NODE, PORT * max(len(stop.inputs), len(stop.outputs), 1)) + (PILL + 6 if self.memories(instance) else 0)

    def memories(self, instance: Instance) -> List[str]:
        names = [it.name for it in self.network.memories]
        return [name for name in instance.bindings.values() if name in names]

    # ---- rows

    def _order(self) -> None:
        """Puts the stops in rows: a task in its own frame, and where a stream passes a column in the innermost frame around its ends."""
        for instance in self.by_label.values():
            self.frames[instance.path].stops.append(self.stops[instance.label])
        before: Dict[int, List[Stop]] = {}
        for way in self.ways.values():
            ends = [self.by_label[it.label or ""].path for it in (way[0], way[-1])]
            self.frames[common(*ends)].stops += way[1:-1]
            for one, other in zip(way, way[1:]):
                before.setdefault(id(other), []).append(one)
        top = self.frames[()]
        top.lay(before)
        top.move(MARGIN + TITLE)
        self.bottom = top.top + top.height + GAP

    # ---- places

    def _widths(self) -> Dict[str, float]:
        """The width of each task's box. Those of a column in one upper-level task of the top have the same width, which is enough for the names around them."""
        own: Dict[str, float] = {}
        groups: Dict[Tuple[int, str], List[str]] = {}
        for it in self.network.instances:
            pills = sum(text_width(name, SMALL) + 16 for name in self.memories(it))
            names = [text_width(name_of(upper, it.path[:at]), SMALL) for at, upper in enumerate(it.path)]
            own[it.label] = max([text_width(short(it), SIZE) + 24, pills + 4, 70, *names])
            groups.setdefault((self.columns[it.label], it.path[0] if it.path else it.label), []).append(it.label)
        return {label: max(own[it] for it in labels) for labels in groups.values() for label in labels}

    def width_of(self, instance: Instance) -> float:
        return self.width[instance.label]

    def picture(self) -> Picture:
        count = max(self.columns.values(), default=0) + 1
        widths = [max([self.width_of(it) for it in self.network.instances if self.columns[it.label] == column] or [40]) for column in range(count)]
        labels = [self._labels_of(column) for column in range(count)]
        self.left, x = [], float(MARGIN + (TURN if self.back else 0))
        for column, (width, room) in enumerate(zip(widths, labels)):
            self.left.append(x + max((it.left_pad() for it in self.frames[()].frames if it.first == column), default=0.0))
            x = self.left[-1] + width + room + TURN
        self.widths, self.rooms = widths, labels
        found = Picture(x - TURN + (TURN if self.back else 0) + MARGIN, self.bottom + 14 * len(self.back) + MARGIN)
        for number, stream in enumerate(self.back):
            found.wires.append(self._back(stream, self.bottom + 14 * number))
        found.wires += [self._wire(name) for name in self.ways]
        tasks = [box for it in self.network.instances for box in self._boxes(it)]
        found.boxes = [*self._uppers(tasks), *tasks]
        return found

    def _labels_of(self, column: int) -> float:
        """The room that borders and labels take after a column."""
        rooms = [0.0]
        for label, stop in self.stops.items():
            if stop.column == column:
                rooms += [self._pad(label), *(max(text_width(_short(name), SMALL, True), text_width(self.facts.get(name, ""), SMALL)) + self._pad(label) + 14 for name in stop.outputs)]
        return max(rooms)

    def _pad(self, label: str) -> float:
        """The room that the borders around a task take right of it."""
        path = self.by_label[label].path
        around = [self.frames[path[:length]] for length in range(1, len(path) + 1)]
        return max((it.right_pad() for it in around if it.last == self.columns[label]), default=0.0)

    def _port(self, stop: Stop, name: str, is_output: bool) -> float:
        if stop.label is None:
            return stop.y + stop.height / 2
        names = stop.outputs if is_output else stop.inputs
        return stop.y + PORT * names.index(name) + PORT / 2 + 2

    def _side(self, stop: Stop, is_right: bool) -> float:
        if stop.label is None:
            return self.left[stop.column] + (self.widths[stop.column] + self.rooms[stop.column] if is_right else 0)
        return self.left[stop.column] + (self.width_of(self.by_label[stop.label]) if is_right else 0)

    def _wire(self, name: str) -> Wire:
        way = self.ways[name]
        x, y = self._side(way[0], True), self._port(way[0], name, True)
        text = f"M{x:.1f} {y:.1f}"
        for one, other in zip(way, way[1:]):
            begin = self.left[one.column] + self.widths[one.column] + self.rooms[one.column]
            to_x, to_y = self._side(other, False), self._port(other, name, False)
            bend = (to_x - begin) / 2
            text += f" H{begin:.1f} C{begin + bend:.1f} {y:.1f} {to_x - bend:.1f} {to_y:.1f} {to_x:.1f} {to_y:.1f}"
            y = to_y
        return self._labelled(name, text, way[0])

    def _labelled(self, name: str, way: str, writer: Stop) -> Wire:
        """A wire whose label begins right of the borders around its writer."""
        x = self._side(writer, True) + self._pad(writer.label or "") + 6
        return Wire(name, way, _short(name), self.facts.get(name, ""), x, self._port(writer, name, True))

    def _back(self, stream: Channel, lane: float) -> Wire:
        """A stream that leads back: below all boxes."""
        writer, reader = self.stops[stream.writer or ""], self.stops[stream.reader or ""]
        x, y = self._side(writer, True), self._port(writer, stream.name, True)
        turn = self.left[writer.column] + self.widths[writer.column] + self.rooms[writer.column] + 8 + 4 * self.back.index(stream) % 30
        to_x, to_y = self._side(reader, False), self._port(reader, stream.name, False)
        rise = to_x - 14 - 4 * self.back.index(stream) % 30
        text = f"M{x:.1f} {y:.1f} H{turn:.1f} V{lane:.1f} H{rise:.1f} V{to_y:.1f} H{to_x:.1f}"
        return self._labelled(stream.name, text, writer)

    def _boxes(self, instance: Instance) -> List[Box]:
        stop, x = self.stops[instance.label], self.left[self.columns[instance.label]]
        memories = self.memories(instance)
        height = stop.height - (PILL + 6 if memories else 0)
        found = [Box("task", instance.label, short(instance), x, stop.y, self.width_of(instance), height)]
        for name in memories:
            width = text_width(name, SMALL) + 12
            found.append(Box("memory", name, name, x + 2, stop.y + height + 6, width, PILL))
            x += width + 4
        return found

    def _uppers(self, tasks: Sequence[Box]) -> List[Box]:
        """The boxes of upper-level tasks, the outer ones first."""
        found = []
        for upper in self.network.uppers:
            frame = self.frames.get((*upper.path, upper.label))
            if frame:
                left = self.left[frame.first]
                right = max(it.x + it.width for it in tasks if it.kind == "task" and self.by_label[it.name].path[:len(frame.path)] == frame.path)
                x, y = left - frame.left_pad(), frame.upper
                found.append(Box("upper", upper.label, name_of(upper.label, upper.path), x, y, right + frame.right_pad() - x, frame.lower - y, left, y + NAME_DOWN))
        return found


def _short(name: str) -> str:
    """A stream's name without the upper-level tasks around it."""
    return name.rsplit("$", 1)[-1]


def short(instance: Instance) -> str:
    """An instance's label without the upper-level tasks around it."""
    return instance.label.split("$", 2 * len(instance.path))[-1]


def name_of(label: str, path: Sequence[str]) -> str:
    """What is written on the box of an upper-level task that has this path: no more of its label than has room."""
    return cut_name(label.split("$", 2 * len(path))[-1], SMALL, NAME)


def lay_out(network: Network, facts: Optional[Dict[str, str]] = None) -> Picture:
    """The picture of a network; `facts` are second lines of text for streams by name."""
    return Layout(network, facts or {}).picture()
