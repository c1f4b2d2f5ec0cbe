"""The picture of a network laid out by Graphviz, where its program `dot` is installed and is quick enough."""
from __future__ import annotations

import json
import shutil
import subprocess
from typing import Any, Dict, Iterator, List, Optional, Tuple

from ..language.network import Instance, Network
from . import labels
from .frames import GAP, PAD
from .graph import NODE, PILL, SIZE, SMALL, TITLE, Box, Picture, Wire, name_of, short
from .svg import text_width

# The most instances that are given to it, and the seconds that it may take.
MOST, SECONDS = 160, 10
POINTS = 72.0


def by_graphviz(network: Network, facts: Dict[str, str]) -> Optional[Picture]:
    """The picture, or None if there is no `dot`, if it takes too long, if the network is large, or if a label has no room."""
    if not shutil.which("dot") or len(network.instances) > MOST:
        return None
    return _laid_out(network, facts, False) or (_laid_out(network, facts, True) if network.uppers else None)


def _laid_out(network: Network, facts: Dict[str, str], is_level: bool) -> Optional[Picture]:
    """The picture of one call of `dot`, or None. If `is_level`, streams end at the left and right sides of tasks: then names above these tasks have room."""
    try:
        ran = subprocess.run(["dot", "-Tjson0"], input="\n".join(_graph(network, facts, is_level)).encode(), capture_output=True, timeout=SECONDS, check=True)
        return _picture(network, facts, json.loads(ran.stdout))
    except (OSError, subprocess.SubprocessError, ValueError, KeyError):
        return None


def _memories(network: Network, instance: Instance) -> List[str]:
    names = [it.name for it in network.memories]
    return [name for name in instance.bindings.values() if name in names]


def _size(network: Network, instance: Instance) -> Tuple[float, float]:
    """Width and height of a task's box with its memories below."""
    memories = _memories(network, instance)
    pills = sum(text_width(name, SMALL) + 16 for name in memories)
    return max(text_width(short(instance), SIZE) + 24, pills + 4, 70), NODE + (PILL + 6 if memories else 0)


def _graph(network: Network, facts: Dict[str, str], is_level: bool) -> Iterator[str]:
    """The network in Graphviz's language: a cluster for each upper-level task."""
    writer, reader = (":e", ":w") if is_level else ("", "")
    yield f'digraph G {{ rankdir=LR; nodesep={GAP / POINTS:.2f}; ranksep=0.5; node [shape=plain]; edge [fontname="DejaVu Sans", fontsize={SMALL}];'
    yield from _cluster(network, ())
    for stream in network.streams:
        if stream.writer and stream.reader:
            width = max(text_width(stream.name.rsplit("$", 1)[-1], SMALL, True), text_width(facts.get(stream.name, ""), SMALL)) + 12
            # a table of the label's size, whose words are written by whoever draws the picture
            label = f'<<table border="0" fixedsize="true" width="{width:.0f}" height="30"><tr><td></td></tr></table>>'
            yield f'"{stream.writer}":t{writer} -> "{stream.reader}":t{reader} [id="{stream.name}", label={label}];'
    yield "}"


def _cells(width: float, height: float) -> str:
    """A node's table: a cell for the task's box, at which streams end, and room below it for its memories."""
    rest = f'<tr><td fixedsize="true" width="{width:.0f}" height="{height - NODE:.0f}"></td></tr>' if height > NODE else ""
    return f'<table border="0" cellborder="0" cellspacing="0" cellpadding="0"><tr><td port="t" fixedsize="true" width="{width:.0f}" height="{NODE}"></td></tr>{rest}</table>'


def _cluster(network: Network, path: Tuple[str, ...]) -> Iterator[str]:
    for instance in network.instances:
        if instance.path == path:
            width, height = _size(network, instance)
            yield f'"{instance.label}" [label=<{_cells(width, height)}>];'
    for upper in network.uppers:
        if upper.path == path:
            label = f'<<table border="0" fixedsize="true" width="{text_width(name_of(upper.label, path), SMALL) + 12:.0f}" height="{TITLE}"><tr><td></td></tr></table>>'
            yield f'subgraph "cluster_{upper.label}" {{ margin={PAD}; label={label}; labeljust=l;'
            yield from _cluster(network, (*path, upper.label))
            yield "}"


def _picture(network: Network, facts: Dict[str, str], made: Dict[str, Any]) -> Optional[Picture]:
    left, bottom, right, top = (float(number) for number in made["bb"].split(","))
    margin = 20.0
    found = Picture(right - left + 2 * margin, top - bottom + 2 * margin)

    def place(text: str) -> Tuple[float, float]:
        x, y = (float(number) for number in text.split(",")[-2:])
        return x - left + margin, top - y + margin

    objects = {it["name"]: it for it in made.get("objects", [])}
    for upper in network.uppers:
        it = objects.get(f"cluster_{upper.label}")
        if it and "bb" in it:
            one, other = place(",".join(it["bb"].split(",")[:2])), place(",".join(it["bb"].split(",")[2:]))
            found.boxes.append(Box("upper", upper.label, name_of(upper.label, upper.path), one[0], other[1], other[0] - one[0], one[1] - other[1]))
    for instance in network.instances:
        found.boxes += _boxes(network, instance, *place(objects[instance.label]["pos"]))
    lines = []
    for edge in made.get("edges", []):
        x, y = place(edge.get("lp", edge["pos"].split()[-1]))
        curve = _curve(edge["pos"], place)
        wire = Wire(edge["id"], _way(curve), edge["id"].rsplit("$", 1)[-1], facts.get(edge["id"], ""), 0, y - 2)
        found.wires.append(wire._replace(label_x=x - labels.width_of(wire) / 2))
        lines.append(labels.points_of(curve))
    return labels.with_room(found, lines)


def _boxes(network: Network, instance: Instance, x: float, y: float) -> Iterator[Box]:
    """A task's box and its memories, around a middle."""
    width, height = _size(network, instance)
    at, memories = x - width / 2, _memories(network, instance)
    yield Box("task", instance.label, short(instance), at, y - height / 2, width, NODE)
    for name in memories:
        wide = text_width(name, SMALL) + 12
        yield Box("memory", name, name, at + 2, y - height / 2 + NODE + 6, wide, PILL)
        at += wide + 4


def _curve(pos: str, place: Any) -> List[Tuple[float, float]]:
    """The points of a spline of Graphviz: the end of its arrow comes first, then a point and groups of three."""
    words = pos.split()
    ends = [it for it in words if it.startswith("e,")]
    return [place(it) for it in [*(it for it in words if not it.startswith(("e,", "s,"))), *ends]]


def _way(curve: List[Tuple[float, float]]) -> str:
    """The points as a path of SVG: cubic curves, and a straight line to the end of the arrow."""
    text = "M{:.1f} {:.1f}".format(*curve[0])
    for number in range(1, len(curve) - 2, 3):
        text += " C" + " ".join(f"{x:.1f} {y:.1f}" for x, y in curve[number:number + 3])
    return text + (" L{:.1f} {:.1f}".format(*curve[-1]) if len(curve) % 3 == 2 else "")
