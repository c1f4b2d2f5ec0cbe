"""The page of tools/look.py, one HTML file that needs nothing else: the files in the folder `look`, and what it shows as one object of JSON: the network's picture, the profile with
its cycles, the source, the plan and the reports."""
from __future__ import annotations

import html
import json
import os
from array import array
from pathlib import Path
from typing import Any, Dict, List, Optional, Sequence

from ..host.device import RESOURCES, Device
from ..host.estimate import Estimate
from ..host.plan import Plan
from ..host.report import Report
from ..host.slot_groups import Link
from ..language.network import Network
from ..language.source import Source
from ..machine.run import BAD, ENDED, TICK
from ..measure.bounds import bound, circle, critical_way, waiting_for
from ..measure.profile import CODES, Profile, StreamProfile, TaskProfile
from ..measure.text import shorter_turns
from ..measure.tries import Change
from .dot import by_graphviz
from .floorplan import bundles
from .folding import folded
from .graph import lay_out
from .report import Row, past_end, shortened

FOLDER = os.path.join(os.path.dirname(os.path.abspath(__file__)), "look")
# Histories are texts, a character a cycle: a number is its place in the alphabet, which leaves out what HTML or JSON would escape.
ALPHABET = "".join(chr(code) for code in range(35, 127) if chr(code) not in "&<\\")
# The most characters of all histories: a longer run has several cycles in one character.
MOST = 5_000_000


def page_data(source: Source, network: Network, found: Profile) -> Dict[str, Any]:
    """All but what needs a plan, a report or tried changes; these are None."""
    span = 1 + found.cycles * (len(found.tasks) + len(found.streams)) // MOST
    bounds = bound(critical_way(found))
    return {
        "top": network.top,
        "path": os.path.basename(source.path or ""),
        "lines": [line.decode("utf-8", "replace") for line in source.text.split(b"\n")],
        "alphabet": ALPHABET,
        "cycles": found.cycles,
        "done": found.is_done,
        "lastTick": found.last_tick(),
        "span": span,
        "graph": _graph(network),
        "folded": _graph(folded(network)) if network.uppers else None,
        "tasks": [_task(it, span) for it in found.tasks.values()],
        "streams": [_stream(it, span) for it in found.streams.values()],
        "memories": [it.name for it in network.memories],
        "costs": {line: [cost.ticks, cost.waits] for line, cost in found.lines().items()},
        "uses": None,
        "bound": {"cycles": bounds.cycles, "tasks": bounds.tasks, "lines": list(bounds.lines.items()), "memories": bounds.memories, "rooms": bounds.rooms},
        "shorter": shorter_turns(found, bounds),
        "circle": circle(waiting_for(found)),
        "waiting": {label: [str(wait), other] for label, (wait, other) in waiting_for(found).items()} if not found.is_done else {},
        "pastEnd": list(past_end(found)),
        "changes": None,
        "plan": None,
        "run": None,
    }


def _graph(network: Network) -> Dict[str, Any]:
    facts = {it.name: f"{it.kind.word}, depth {it.depth}" for it in network.streams}
    picture = by_graphviz(network, facts) or lay_out(network, facts)
    return {
        "width": round(picture.width), "height": round(picture.height),
        "boxes": [[it.kind, it.name, it.label, *(round(number, 1) for number in it[3:])] for it in picture.boxes],
        "wires": [[it.name, it.way, it.label, it.facts, round(it.label_x, 1), round(it.label_y, 1)] for it in picture.wires],
    }


def _task(task: TaskProfile, span: int) -> Dict[str, Any]:
    machine, waits = task.machine, list(task.waits)
    width = 1 if len(machine.states) <= len(ALPHABET) else 2
    return {
        "label": task.instance.label, "task": task.instance.task, "detached": task.instance.detached, "line": machine.task.place.line,
        "path": list(task.instance.path), "bindings": task.instance.bindings, "ticks": task.ticks, "ended": task.ended, "bad": task.bad,
        "waits": [[it.what, it.name, task.waits[it]] for it in waits],
        "states": [[machine.place(it).line, machine.says(it)] for it in machine.states],
        "history": _history(task, span), "width": width, "at": _states(task, span, width),
    }


def _history(task: TaskProfile, span: int) -> str:
    """What the task does in each cycle, or in the first of each span: 0 a tick, 1 has ended, 2 a wrong token, 3 and more waits for what stands there in its list."""
    waits = {it: 3 + number for number, it in enumerate(task.waits)}
    plain = {CODES[TICK]: 0, CODES[ENDED]: 1, CODES[BAD]: 2}
    codes = [plain[status] if status in plain else waits[task.wait_at(state)] for state, status in zip(task.states[::span], task.statuses[::span])]
    return "".join([ALPHABET[min(code, len(ALPHABET) - 1)] for code in codes])


def _states(task: TaskProfile, span: int, width: int) -> str:
    base = len(ALPHABET)
    if width == 1:
        return "".join([ALPHABET[state] for state in task.states[::span]])
    return "".join([ALPHABET[state // base % base] + ALPHABET[state % base] for state in task.states[::span]])


def _stream(stream: StreamProfile, span: int) -> Dict[str, Any]:
    channel, top = stream.channel, len(ALPHABET) - 1
    # a fill above the alphabet's end is drawn to scale
    scale = max(1, -(-stream.most // top))
    return {
        "name": channel.name, "kind": channel.kind.word, "depth": channel.depth, "writer": channel.writer, "reader": channel.reader, "tokens": stream.tokens,
        "least": stream.least, "mean": round(stream.mean, 2), "most": stream.most, "heldWriter": stream.holds_writer, "heldReader": stream.holds_reader,
        "scale": scale, "fill": "".join([ALPHABET[it // scale] for it in _fullest(stream.fills, span)]),
    }


def _fullest(fills: "array[int]", span: int) -> Sequence[int]:
    return fills if span == 1 else [max(fills[at:at + span]) for at in range(0, len(fills), span)]


def uses_data(found: Estimate) -> List[List[Any]]:
    """What an instance of each leaf task uses of a device, and how many there are."""
    return [[task, count, *found.tasks[task]] for task, count in found.counts().items()]


def plan_data(plan: Plan, device: Device, network: Network) -> Dict[str, Any]:
    """A plan with its device, and the streams over each border."""
    widths = {it.name: it.width for it in plan.streams}
    links = [Link(it.name, it.writer or "", it.reader or "", widths[it.name]) for it in network.streams]
    return {
        "rows": device.rows, "cols": device.cols, "percent": device.percent, "resources": list(RESOURCES),
        "slots": [
            {"place": list(device.place(number)), "uses": plan.slots.get(device.place(number), [0] * len(RESOURCES)), "has": has, "forbidden": device.is_forbidden(number)}
            for number, has in enumerate(device.slots)
        ],
        "tasks": {label: list(place) for label, place in plan.tasks.items()},
        "streams": {it.name: [it.width, it.latency, it.balance, it.flow] for it in plan.streams},
        "bundles": [[here, there, it.bits, it.streams] for (here, there), it in sorted(bundles(plan, links).items())],
        "cost": plan.cost, "registers": plan.registers, "dual": plan.dual,
    }


def report_data(rows: List[Row], report: Report) -> Dict[str, Any]:
    """A report with signs and shortened lines."""
    return {
        "rows": [[it.what, it.name, it.kind, len(it.values), shortened(it.values), it.note] for it in rows],
        "end": f"{report.end} {report.count}".strip(), "messages": report.messages,
    }


def changes_data(changes: Optional[Sequence[Change]]) -> Optional[List[List[Any]]]:
    return None if changes is None else [[it.text, it.cycles] for it in changes]


# ---- the page


def page(data: Dict[str, Any]) -> str:
    """The text of the page."""
    made, style, code = (Path(FOLDER, f"page.{end}").read_text(encoding="utf-8") for end in ("html", "css", "js"))
    parts = {"TITLE": html.escape(f"{data['top']}: {data['path']}"), "STYLE": style, "SCRIPT": code, "DATA": _script_safe(data)}
    for name, text in parts.items():
        made = made.replace(f"@{name}@", text, 1)
    return made


def _script_safe(data: Dict[str, Any]) -> str:
    """The data as JSON in which no character can end the element that holds it."""
    return json.dumps(data, separators=(",", ":"), ensure_ascii=True).replace("<", "\\u003c")
