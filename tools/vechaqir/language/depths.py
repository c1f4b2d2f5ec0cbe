"""The depths of a source's streams: by which declaration each stream of the flat network has its depth, and the text of the source with other depths."""
from __future__ import annotations

from typing import Dict, List, NamedTuple, Optional, Tuple

from .network import network
from .syntax import Source, Stream


class Declared(NamedTuple):
    """A stream or an array of streams by the task that declares it, and its name there."""

    task: str
    name: str


def declarations(source: Source, top: str) -> Dict[str, Declared]:
    """Of each stream of the flat network by name the declaration that it comes from."""
    uppers = {it.label: it.task for it in network(source, top).uppers}
    found = {}
    for channel in network(source, top).streams:
        *way, name = channel.name.split("$")
        task = uppers["$".join(way)] if way else top
        stream = next(it for it in source.tasks[task].streams if it.name == name or it.is_array and name.startswith(it.name + "_"))
        found[channel.name] = Declared(task, stream.name)
    return found


def with_depths(source: Source, depths: Dict[Declared, int]) -> bytes:
    """The text of a source with other depths: a declaration that has one of these names is written anew, on its line."""
    text, pieces = source.text, []
    for task in source.tasks.values():
        for begin, end, streams in _groups(source, task.streams):
            if any(Declared(task.name, it.name) in depths for it in streams):
                words = " ".join(_declaration(it, depths.get(Declared(task.name, it.name), it.depth)) for it in streams)
                pieces.append((begin, end, words + "\n".join([""] * (1 + text[begin:end].count(b"\n")))))
    for begin, end, words in sorted(pieces, reverse=True):
        text = text[:begin] + words.encode() + text[end:]
    return text


def _declaration(stream: Stream, depth: Optional[int]) -> str:
    if stream.is_array:
        return f"tapa::streams<{stream.kind.word}, {stream.count}, {depth}> {stream.name};"
    return f"tapa::stream<{stream.kind.word}, {depth}> {stream.name};"


def _groups(source: Source, streams: List[Stream]) -> List[Tuple[int, int, List[Stream]]]:
    """The streams of each declaration, with the offsets of its `tapa` and behind its `;`."""
    found: Dict[Tuple[int, int], List[Stream]] = {}
    words = source.lexemes
    for stream in streams:
        at = source.index_at(source.lines.offset(stream.place))
        first, last = at, at
        while words[first].text != "tapa":
            first -= 1
        while words[last].text != ";":
            last += 1
        found.setdefault((words[first].begin, words[last].end), []).append(stream)
    return [(begin, end, group) for (begin, end), group in found.items()]
