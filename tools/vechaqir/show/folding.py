"""A network in which each upper-level task of the top is one box: what the page of a design shows first of a nested one."""
from __future__ import annotations

from typing import Dict, List

from ..language.network import Channel, Instance, Network


def folded(network: Network) -> Network:
    """The network with the streams between its boxes; what is inside an upper-level task is left out."""
    uppers = {it.label: it for it in network.uppers}
    home = {it.label: it.path[0] if it.path else it.label for it in network.instances}
    memories = {it.name for it in network.memories}
    made: Dict[str, Instance] = {}
    for it in network.instances:
        label = home[it.label]
        inside = {f"{it.label} {name}": bound for name, bound in it.bindings.items() if bound in memories}
        if label in made:
            made[label].bindings.update(inside)
        else:
            made[label] = it if label == it.label else Instance(label, uppers[label].task, False, (), inside)
    return Network(network.top, list(made.values()), [], _between(network, home), network.memories, network.scalars)


def _between(network: Network, home: Dict[str, str]) -> List[Channel]:
    """The streams that lead from one box to another, or from a task of the top to itself."""
    found = []
    for it in network.streams:
        writer, reader = home.get(it.writer or ""), home.get(it.reader or "")
        if writer and reader and (writer != reader or writer == it.writer):
            found.append(Channel(it.name, it.kind, it.depth, writer, reader))
    return found
