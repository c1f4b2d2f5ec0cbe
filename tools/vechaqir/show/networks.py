"""Drawings of networks: the picture of a source's network or of a circuit that `tapa build` wrote, as the lines of an SVG file."""
from __future__ import annotations

import re
from typing import Dict, Iterator, List, Mapping, Tuple

from ..explain.messages import parse
from ..language.kinds import Kind
from ..language.lexemes import Place
from ..language.network import LEVELS, Channel, Instance, Network
from ..language.syntax import Parameter
from .graph import SIZE, SMALL, Box, Picture, Wire, lay_out
from .svg import INK, LINE, PAPER, QUIET, box, path, picture, text, text_width

LATE = "#b3541e"


class NoCircuit(ValueError):
    """A text that is no circuit of `tapa build`."""


def of_circuit(circuit: str) -> Tuple[Network, Dict[str, str], List[str]]:
    """The network that the top module of a text joins; of each stream its bits, depth and registers in words; and those that have registers on their way.

    Raises NoCircuit.
    """
    modules = re.findall(r"\bmodule\s+([\w$]+)\s*\(.*?\)\s*;(.*?)\bendmodule\b", circuit, re.S)
    if not modules or not modules[-1][0].startswith("t_"):
        raise NoCircuit("this is no circuit that `tapa build` wrote: it has no top module")
    name, body = modules[-1]
    network = Network(name[2:])
    facts: Dict[str, str] = {}
    late: List[str] = []
    for module, instance, links in re.findall(r"^\s*([\w$]+)\s+([tc]_[\w$]+)\s*\((.*?)\)\s*;", body, re.M | re.S):
        label = instance[2:]
        if instance.startswith("c_"):
            sizes = re.fullmatch(r"channel_(\d{1,6})_(\d{1,6})_(\d{1,6})", module)
            if not sizes:
                raise NoCircuit(f"this is no circuit that `tapa build` wrote: {module[:60]} is no module of a stream")
            bits, depth, latency = map(int, sizes.groups())
            network.streams.append(Channel(label, Kind(bits - 1, False, ""), depth))
            facts[label] = f"{bits} bits, depth {depth}" + (f", {latency} registers" if latency else "")
            late += [label] if latency else []
        else:
            _join(network, label, module[2:], dict(re.findall(r"\.\s*([\w$]+)\s*\(\s*([\w$]+)\s*\)", links)))
    _find_ends(network)
    return network, facts, late


def _join(network: Network, label: str, task: str, links: Mapping[str, str]) -> None:
    """Adds an instance, with the streams and memories that its ports are joined to, and the upper-level tasks around it."""
    parts = label.split("$")
    around = tuple("$".join(parts[:at]) for at in range(2, min(len(parts) - 1, 2 * LEVELS), 2))
    for number, upper in enumerate(around):
        if all(it.label != upper for it in network.uppers):
            network.uppers.append(Instance(upper, upper.split("$")[-2], False, around[:number], {}))
    bindings = {}
    for port, net in links.items():
        if re.fullmatch(r"m_.*_addr", net) and port.startswith("addr_"):
            bindings[port] = net[2:-5]
            if all(it.name != net[2:-5] for it in network.memories):
                network.memories.append(Parameter(net[2:-5], "mmap", Kind(0, False, ""), False, Place(0, 0)))
        elif re.fullmatch(r"s_.*_(wr|take)", net):
            bindings[port] = net[2:-3] if net.endswith("_wr") else net[2:-5]
    network.instances.append(Instance(label, task, False, around, bindings))


def _find_ends(network: Network) -> None:
    for instance in network.instances:
        for port, name in instance.bindings.items():
            channel = network.stream(name)
            if channel and port.startswith("wr_"):
                channel.writer = instance.label
            elif channel and port.startswith("take_"):
                channel.reader = instance.label


def put_waits(network: Network, facts: Dict[str, str], messages: List[str]) -> List[str]:
    """Puts what instances wait for into the facts of the streams, and gives these streams."""
    waited = []
    for line in messages:
        message = parse(line)
        channel = network.stream(message.stream) if message and message.sort == "waits" else None
        if message and channel:
            state = {"waits to read": "empty", "waits to write": "full"}.get(message.text, "")
            facts[channel.name] = f"depth {channel.depth}" + (f", {state}" if state else "") + f": {message.label} {message.text.removesuffix(' on')}" + " it" * bool(state)
            waited.append(channel.name)
    return waited


def drawing(network: Network, facts: Dict[str, str], late: List[str]) -> Iterator[str]:
    """The lines of the SVG file; streams with registers on their way have a colour of their own."""
    yield from drawing_of(lay_out(network, facts), network.top, late)


def drawing_of(found: Picture, title: str, late: List[str]) -> Iterator[str]:
    """The lines of the SVG file of a network that is laid out."""
    yield from picture(found.width, found.height, _parts(found, title, late))


def _parts(found: Picture, title: str, late: List[str]) -> Iterator[str]:
    yield text(10, 18, title, SIZE, is_bold=True)
    for it in found.boxes:
        if it.kind == "upper":
            yield box(it.x, it.y, it.width, it.height, "none", LINE, 6, "4 3")
            yield text(it.label_x, it.label_y, it.label, SMALL, colour=QUIET)
    for wire in found.wires:
        yield path(wire.way, LATE if wire.name in late else LINE, 2 if wire.name in late else 1.2)
    for it in found.boxes:
        if it.kind != "upper":
            yield from _box(it)
    # names are above all arrows, so that none is crossed out
    for wire in found.wires:
        yield from _name(wire)


def _name(it: Wire) -> Iterator[str]:
    for words, y, size in ((it.label, it.label_y - 4, text_width(it.label, SMALL, True)), (it.facts, it.label_y + 11, text_width(it.facts, SMALL))):
        if words:
            yield f'<rect x="{it.label_x:.1f}" y="{y - 0.78 * SMALL:.1f}" width="{size:.1f}" height="{SMALL}" fill="#ffffff" fill-opacity="0.85"/>'
    yield text(it.label_x, it.label_y - 4, it.label, SMALL, is_bold=True)
    yield text(it.label_x, it.label_y + 11, it.facts, SMALL, colour=QUIET)


def _box(it: Box) -> Iterator[str]:
    is_task = it.kind == "task"
    yield box(it.x, it.y, it.width, it.height, PAPER if is_task else "#e6f0e6", LINE, 4 if is_task else 9)
    yield text(it.x + it.width / 2, it.y + it.height / 2 + 4, it.label, SIZE if is_task else SMALL, "middle", colour=INK)
