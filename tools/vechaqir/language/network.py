"""The flat network of a top task: its leaf instances, streams and memories, by the names that the program prints."""
from dataclasses import dataclass, field
from typing import Dict, List, NamedTuple, Optional, Tuple

from .kinds import Kind
from .lexemes import decimal
from .syntax import Invoke, Parameter, Source, Stream, Task

# The most levels of upper-level tasks, and the most instances, that are followed; the program has 8 and 512.
LEVELS, INSTANCES = 9, 4_096


class NoTask(LookupError):
    """A source that has no such task; the words say which it has."""


class Instance(NamedTuple):
    """An instance: its label as `U$0$F$1`, its task, whether it is detached, the labels of the upper-level tasks around it from the outermost on, and for
    each parameter the flat name of its stream, the name of its memory or scalar of the top task, or the text of a constant."""

    label: str
    task: str
    detached: bool
    path: Tuple[str, ...]
    bindings: Dict[str, str]


@dataclass
class Channel:
    """A stream of the flat network; depth in tokens, None where it is no constant. The ends are labels of leaf instances, or None where none has it."""

    name: str
    kind: Kind
    depth: Optional[int]
    writer: Optional[str] = None
    reader: Optional[str] = None


@dataclass
class Network:
    """The flat network of a top task, in the order in which the program prints it."""

    top: str
    instances: List[Instance] = field(default_factory=list)
    uppers: List[Instance] = field(default_factory=list)
    streams: List[Channel] = field(default_factory=list)
    memories: List[Parameter] = field(default_factory=list)
    scalars: List[Parameter] = field(default_factory=list)

    def stream(self, name: str) -> Optional[Channel]:
        return next((it for it in self.streams if it.name == name), None)

    def instance(self, label: str) -> Optional[Instance]:
        return next((it for it in self.instances if it.label == label), None)


def elements(stream: Stream) -> List[str]:
    """The names of a declaration's streams: an array's are written out as `q_0`, `q_1` and so on, up to more than the program allows."""
    return [f"{stream.name}_{at}" for at in range(min(stream.count or 0, INSTANCES))] if stream.is_array else [stream.name]


class Flattening:
    """Follows the chains of a source from its top task on."""

    def __init__(self, source: Source, top: Task) -> None:
        self.source = source
        self.network = Network(top.name)
        self.channels: Dict[str, Channel] = {}
        self.network.memories = [it for it in top.parameters if it.direction == "mmap"]
        self.network.scalars = [it for it in top.parameters if it.direction == "scalar"]
        self.enter(top, (), False, {it.name: it.name for it in top.parameters})

    def enter(self, task: Task, path: Tuple[str, ...], detached: bool, bound: Dict[str, str]) -> None:
        """An upper-level task: its streams, and then its chain."""
        names = dict(bound)
        front = path[-1] + "$" if path else ""
        for stream in task.streams:
            for name in elements(stream):
                channel = Channel(front + name, stream.kind, stream.depth)
                names[name] = channel.name
                self.network.streams.append(channel)
                self.channels[channel.name] = channel
        arrays = {it.name: it.count or 0 for it in task.streams if it.is_array}
        number = 0
        for invoke in task.invokes:
            for turn in range(min(invoke.count, INSTANCES)):
                self.invoked(invoke, turn, f"{front}{invoke.task}${number}", path, detached, names, arrays)
                number += 1

    def invoked(self, invoke: Invoke, turn: int, label: str, path: Tuple[str, ...], detached: bool, names: Dict[str, str], arrays: Dict[str, int]) -> None:
        task = self.source.tasks.get(invoke.task)
        if not task or len(self.network.instances) + len(self.network.uppers) >= INSTANCES:
            return
        texts = [self.element(it.text, turn, arrays) for it in invoke.arguments]
        bindings = {parameter.name: names.get(text, text) for parameter, text in zip(task.parameters, texts)}
        instance = Instance(label, task.name, detached or invoke.detached, path, bindings)
        if not task.is_upper:
            self.network.instances.append(instance)
            self.join(task, instance)
        elif len(path) < LEVELS:
            self.network.uppers.append(instance)
            self.enter(task, path + (label,), instance.detached, bindings)

    def element(self, text: str, turn: int, arrays: Dict[str, int]) -> str:
        """The name of an argument in one turn of a counted invoke."""
        if text in arrays:
            return f"{text}_{turn}"
        name, _, index = text.rstrip("]").partition("[")
        if name in arrays and index:
            number = decimal(index) if index.isdecimal() else self.source.counts.get(index)
            return f"{name}_{number}" if number is not None else text
        return text

    def join(self, task: Task, instance: Instance) -> None:
        """Makes a leaf instance the writer and the reader of its streams."""
        for parameter in task.parameters:
            channel = self.channels.get(instance.bindings.get(parameter.name, ""))
            if channel and parameter.direction == "ostream":
                channel.writer = channel.writer or instance.label
            elif channel and parameter.direction == "istream":
                channel.reader = channel.reader or instance.label


def circle(following: Dict[str, Optional[str]]) -> List[str]:
    """Labels each of which is followed by the next one, and the last one by the first; none if there is no such circle."""
    for first in following:
        way: List[str] = []
        label: Optional[str] = first
        while label in following and label not in way:
            way.append(label)
            label = following[label]
        if label in way:
            return way[way.index(label):]
    return []


def network(source: Source, top: str) -> Network:
    """The flat network of a top task. Raises NoTask."""
    if top not in source.tasks:
        raise NoTask(f"{source.path or 'the source'} has no task {top}: {', '.join(source.tasks) or 'it has none'}")
    return Flattening(source, source.tasks[top]).network
