"""What a notebook shows of a design and of a result: the network, what each task does in each cycle, and tables."""
from __future__ import annotations

import os
import tempfile
from html import escape
from pathlib import Path
from typing import Iterable, Iterator, List, Mapping, Optional, Sequence

from ..host.dump import Dump
from ..host.results import Result
from ..language import source
from ..language.network import Network
from ..machine.run import BAD, ENDED, TICK, Run
from ..measure.profile import CODES, Profile, TaskProfile, profile
from . import svg
from .folding import folded
from .graph import lay_out
from .networks import drawing_of

# The most cycles that a timeline has, its width and that of its names, the height of a row, and the most rows of a picture or a table.
CYCLES, WIDTH, NAMES, ROW, ROWS = 20_000, 960, 220, 16, 60
# The most tokens or cells of a row, and the most tasks of a network that is not folded.
VALUES, TASKS = 16, 24
COLOURS = {"tick": "#3c8d7c", "read": "#e0a33e", "write": "#d2691e", "memory": "#8067b7", "bad": "#c01c28"}
WORDS = {"tick": "makes a tick", "read": "waits to read", "write": "waits to write", "memory": "waits for a memory", "bad": "is before a wrong token"}


def network_of(path: str, top: str) -> Optional[Network]:
    """The network of a source as it is now; None if the source cannot be read or does not have this task."""
    try:
        read = source.read(path)
        return source.network(read, top) if top in read.tasks else None
    except (OSError, ValueError, LookupError):
        return None


def network_svg(path: str, top: str) -> str:
    """The picture of a network, with upper-level tasks folded if it has many tasks; the empty text if there is none."""
    whole = network_of(path, top)
    if whole is None or not whole.instances:
        return ""
    shown = folded(whole) if whole.uppers and len(whole.instances) > TASKS else whole
    facts = {it.name: f"{it.kind.word}, depth {it.depth}" for it in shown.streams}
    return "\n".join(drawing_of(lay_out(shown, facts), top, []))


def table(head: Sequence[str], rows: Iterable[Sequence[object]], count: int) -> str:
    """A table of HTML; `count` is the number of all rows, of which these are the first."""
    lines = ["<table>", "<tr>" + "".join(f"<th>{escape(it)}</th>" for it in head) + "</tr>"]
    lines += ["<tr>" + "".join(f'<td style="text-align:left">{escape(str(it))}</td>' for it in row) + "</tr>" for row in rows]
    return "\n".join([*lines, "</table>", *([f"<p>the first {ROWS} of {count}</p>"] if count > ROWS else [])])


def design_html(path: str, top: str) -> str:
    """The network of a design, and a table of its streams."""
    found = network_of(path, top)
    if found is None:
        return f"<p><b>{escape(top)}</b>: {escape(path)} does not have this task, or cannot be read</p>"
    rows = [(it.name, it.kind.word, it.depth, it.writer or "", it.reader or "") for it in found.streams[:ROWS]]
    title = f"<p><b>{escape(top)}</b> of {escape(path)}: {len(found.instances)} tasks, {len(found.streams)} streams</p>"
    return "\n".join([title, network_svg(path, top), table(("stream", "type", "depth", "written by", "read by"), rows, len(found.streams))])


# ---- a result


def short(values: Sequence[object]) -> str:
    """The first and the last values of a stream or a memory."""
    shown = [str(it) for it in values]
    return " ".join(shown if len(shown) <= VALUES else [*shown[:VALUES - 4], "..", *shown[-4:]])


def _rows(found: Mapping[str, Sequence[object]], what: str) -> List[Sequence[object]]:
    return [(what, name, len(values), short(values)) for name, values in found.items()]


def result_html(result: Result) -> str:
    """How a run ended, the network, the timeline of its circuit, and a table of its streams and memories."""
    count = f"done in cycle {result.cycles}" if result.ticks is None else f"{result.ticks} ticks"
    rows = _rows(result.streams, "stream") + _rows(result.memories, "memory")
    call = result.call
    network = network_svg(call.source, call.top) if call else ""
    return "\n".join([f"<p>{count}</p>", network, result_svg(result), table(("", "name", "values", ""), rows[:ROWS], len(rows))])


def result_svg(result: Result) -> str:
    """What each task does in each cycle of the circuit on the data of a result; the empty text if that takes too long, or the source is another by now."""
    found = simulated(result)
    return "\n".join(timeline(found)) if found else ""


def simulated(result: Result) -> Optional[Profile]:
    """The profile of the circuit on the data of a result."""
    call = result.call
    if call is None or call.program is None:
        return None
    circuit = call.circuit
    try:
        read = source.read(call.source)
        if not circuit:
            circuit = call.program.call(["build", call.source, call.top]).out.decode()
        with tempfile.TemporaryDirectory(prefix="tapa-") as folder:
            text, dump = os.path.join(folder, "circuit.v"), os.path.join(folder, "dump.vcd")
            Path(text).write_text(circuit, encoding="utf-8")
            said = call.program.call(["cosim", text, "/dev/stdin", "--vcd", "--cycles", str(CYCLES)], call.given)
            Path(dump).write_bytes(said.out)
            return profile(Run(read, source.network(read, call.top), Dump(dump))) if said.status in (0, 7) else None
    except (OSError, ValueError, LookupError):
        return None


def timeline(found: Profile) -> Iterator[str]:
    """The lines of the picture: a row for each task, a colour for what it does."""
    tasks = list(found.tasks.values())[:ROWS]
    step = (WIDTH - NAMES - 16) / max(found.cycles, 1)
    parts = list(_legend())
    for number, task in enumerate(tasks):
        y = 44 + ROW * number
        parts.append(svg.text(NAMES - 8, y + 11, svg.cut_name(task.instance.label, 11, NAMES - 12), 11, "end"))
        parts += _row(task, y, step)
    if len(tasks) < len(found.tasks):
        parts.append(svg.text(NAMES, 44 + ROW * len(tasks) + 11, f"the first {ROWS} of {len(found.tasks)} tasks", 11, colour=svg.QUIET))
    parts += [svg.text(NAMES, 36, "cycle 1", 10, colour=svg.QUIET), svg.text(WIDTH - 16, 36, f"cycle {found.cycles}", 10, "end", colour=svg.QUIET)]
    yield from svg.picture(WIDTH, 44 + ROW * (len(tasks) + 1) + 8, parts)


def _legend() -> Iterator[str]:
    x = 12.0
    for kind, words in WORDS.items():
        yield svg.box(x, 6, 10, 10, COLOURS[kind], "none", 2)
        yield svg.text(x + 15, 15, words, 11)
        x += 32 + svg.text_width(words, 11)


def _kind(task: TaskProfile, at: int) -> str:
    """What a task does in a cycle; the empty text if it has ended."""
    status = task.statuses[at]
    if status in (CODES[TICK], CODES[BAD], CODES[ENDED]):
        return {CODES[TICK]: "tick", CODES[BAD]: "bad", CODES[ENDED]: ""}[status]
    return task.wait_at(task.states[at]).what


def _row(task: TaskProfile, y: float, step: float) -> Iterator[str]:
    """A rectangle for each run of cycles in which a task does the same; of cycles that are narrower than half a unit only some are looked at."""
    stride, begin, kind = max(1, int(0.5 / step)), 0, ""
    for at in range(0, len(task.statuses) + stride, stride):
        now = _kind(task, at) if at < len(task.statuses) else ""
        if now != kind or at >= len(task.statuses):
            if kind:
                yield svg.box(NAMES + begin * step, y + 2, (min(at, len(task.statuses)) - begin) * step, ROW - 5, COLOURS[kind], "none", 0)
            begin, kind = at, now
