"""Why a run has stopped before its end: tasks that wait for each other, or for what has ended, and wrong tokens."""
from typing import Dict, List, NamedTuple, Optional

from ..language.matching import View
from ..language.network import Channel, Network, circle
from ..machine.untimed import Running
from . import pages
from .base import counted, few
from .messages import Message
from .replay import writes_end

# The most instances of which it is said what they wait for.
MOST = 12


class Stop(NamedTuple):
    """A run that has stopped: its messages, its network if that is known, each instance as the run left it if that could be followed, and the words of the run."""

    messages: List[Message]
    network: Network
    running: Dict[str, Running]
    words: str = ""

    @property
    def waiting(self) -> Dict[str, Message]:
        return {it.label: it for it in self.messages}

    def line(self, label: str) -> str:
        """Where an instance is."""
        return f" in line {self.running[label].line}" if label in self.running else ""


def other_end(message: Message, channel: Channel) -> Optional[str]:
    """The instance for which an instance waits at a stream."""
    return channel.writer if message.text == "waits to read" else channel.reader


def waits_for(message: Message, stop: Stop) -> str:
    """What an instance waits for, and what the other end of the stream does."""
    channel, label = stop.network.stream(message.stream), message.label
    if channel is None:
        return f"{label} {message.text} {message.stream}"
    if message.text == "bad token on":
        return bad_token(message, stop, channel)
    other = other_end(message, channel)
    is_write = message.text == "waits to write"
    what = f"room in `{channel.name}`, which holds {channel.depth} and is full" if is_write else f"a token of `{channel.name}`, which is empty"
    if is_test(stop, label):
        what = f"a token or the end of a transaction of `{channel.name}`, which is empty"
    front = f"{label} waits{stop.line(label)} for {what}"
    return front if other is None else f"{front}; {other}, which {'reads' if is_write else 'writes'} it, {state_of(other, message, stop)}"


def bad_token(message: Message, stop: Stop, channel: Channel) -> str:
    it = stop.running.get(message.label)
    if it is None:
        return f"{message.label} met the end of a transaction where it reads a value, or a value where it opens the end, on `{message.stream}`, which {channel.writer} writes"
    met, wants = ("a value", "the end of a transaction, by `open()`") if it.state.act == "open" else ("the end of a transaction", "a value")
    return f"{message.label} met {met} in line {it.line}, where it takes {wants}, on `{message.stream}`, which {channel.writer} writes"


def is_test(stop: Stop, label: str) -> bool:
    """Whether an instance waits at a test for the end of a transaction."""
    it = stop.running.get(label)
    return it is not None and it.state.act == "eot"


def state_of(other: str, message: Message, stop: Stop) -> str:
    """What the instance at the other end of a stream does."""
    told = stop.waiting.get(other)
    instance = stop.network.instance(other)
    detached = " and is detached" if instance and instance.detached else ""
    if other == message.label:
        return "is the same instance"
    if told is None:
        return f"has ended{detached}"
    if told.text == "bad token on":
        return f"has stopped at a bad token{detached}"
    return f"itself waits {told.text[len('waits '):]} `{told.stream}`{detached}"


def waited_for(network: Network, message: Message) -> Optional[str]:
    """The instance that could end the wait of another one, if that waits at a stream."""
    channel = network.stream(message.stream)
    return other_end(message, channel) if channel and message.text != "bad token on" else None


def stopped(stop: Stop, depths: Optional[List[str]] = None) -> List[str]:
    """The lines below the messages of a run that has stopped; `depths` says which depths end it, if there are some."""
    said = [waits_for(it, stop) for it in stop.messages]
    lines = [f"      = {it}" for it in said[:MOST]] + [f"      = .. and {len(said) - MOST} more wait"] * (len(said) > MOST)
    way = circle({label: waited_for(stop.network, it) for label, it in stop.waiting.items()})
    if way:
        lines.append(f"      = these wait for each other in a circle: {' -> '.join(way + way[:1])}")
    lines.append(f"      = why: {reason(stop, way)}")
    ways = (depths or advice(stop, way)) if way else advice(stop, way) + (depths or [])
    lines += [f"      = {'or' if at else 'instead'}: {it}" for at, it in enumerate(ways)]
    return lines + [f"      = `{pages.tool('look.py')} {stop.words} > F.html` shows what each task does in each cycle"] * bool(stop.words)


def reason(stop: Stop, way: List[str]) -> str:
    if any(it.text == "bad token on" for it in stop.messages):
        return "a task stops for good at a token of the other sort: a value, or the end of a transaction"
    if way:
        return "no order of steps avoids it at these depths, since each task of the circle waits for another one of it"
    return "a task waits until the other end of its stream acts, and that end does not act any more"


def advice(stop: Stop, way: List[str]) -> List[str]:
    """What a person can do about a run that has stopped."""
    writes = [it.stream for it in stop.messages if it.text == "waits to write" and (not way or it.label in way)]
    if any(it.text == "bad token on" for it in stop.messages):
        return ["ask `eot(nullptr)` before a read, or read in `TAPA_WHILE_NOT_EOT`, and call `open()` after the last token"]
    if way and writes:
        return [f"give {few(writes)} a greater depth where it is declared, or write in the order in which the reader reads"]
    if way:
        return ["let one of these tasks write a first token before it reads: no depth helps where all wait to read"]
    ended = [it for it in stop.messages if other_is_ended(it, stop)]
    return at_end(ended[0], stop) if ended else []


def other_is_ended(message: Message, stop: Stop) -> bool:
    channel = stop.network.stream(message.stream)
    return channel is not None and other_end(message, channel) not in stop.waiting


def at_end(message: Message, stop: Stop) -> List[str]:
    """What to write if the other end of a stream has ended."""
    channel = stop.network.stream(message.stream)
    other = other_end(message, channel) if channel else None
    if message.text == "waits to write":
        return [f"read as many tokens of `{message.stream}` in {other or 'its reader'} as are written"]
    closing = forgotten(message, stop, other)
    if closing:
        return [closing]
    count = carried(message, stop)
    server = f"invoke {message.label.split('$')[-2]} with `tapa::detach` if it serves others and need not end"
    return [f"write as many tokens in {other or 'its writer'} as are read: {message.label} reads one after {count}" if count else f"write as many tokens in {other or 'its writer'} as are read", server]


def carried(message: Message, stop: Stop) -> str:
    """How many tokens the stream of a message has carried."""
    it = stop.running.get(message.label)
    queue = next((queue for queue in (it.queues if it else []) if queue.name == message.stream), None)
    return counted(queue.count, "token") if queue else ""


def forgotten(message: Message, stop: Stop, other: Optional[str]) -> str:
    """A `close()` that the writer of a stream does not call, if the reader waits for the end of a transaction."""
    writer = stop.running.get(other or "")
    if writer is None or not is_test(stop, message.label):
        return ""
    name = next((parameter for parameter in writer.machine.streams if writer.instance.bindings[parameter] == message.stream), "")
    task = writer.machine.task
    if not name or writes_end(View(writer.machine.source), task.name, name):
        return ""
    line = writer.machine.source.place(task.body[1] - 1).line
    return f"write `{name}.close();` at the end of `{task.name}` (line {line}), which never ends its transaction"
