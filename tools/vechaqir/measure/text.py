"""A profile as lines for people, and as JSON."""
from __future__ import annotations

from typing import Any, Dict, Iterator, List, Optional, Sequence, Tuple

from ..host.columns import columns
from ..language.source import Source
from .bounds import Bound, circle, waiting_for
from .profile import Profile
from .tries import Change

# The most rows of a table, and of the parts of the critical way, that are shown.
ROWS, PARTS = 40, 6


def lines(found: Profile, source: Source, bounds: Bound, changes: Optional[Sequence[Change]]) -> Iterator[str]:
    """The whole profile; `changes` are those that were tried, or None where none was."""
    yield f"done in cycle {found.cycles}" if found.is_done else f"not done after {found.cycles} cycles; the last tick was made in cycle {found.last_tick()}"
    yield ""
    yield from _tasks(found)
    yield ""
    yield from _lines(found, source)
    yield ""
    yield from _streams(found)
    yield ""
    if found.is_done:
        yield from _bounds(source, bounds)
    else:
        yield from _standstill(found)
    yield from _changes(found, bounds, changes)


def _tasks(found: Profile) -> Iterator[str]:
    rows = [("task", "ticks", "waits", "ended", "waits for")]
    for label, it in found.tasks.items():
        waits = [f"{cycles} {wait}" for wait, cycles in sorted(it.waits.items(), key=lambda pair: -pair[1])] + ([f"{it.bad} before a wrong token"] if it.bad else [])
        rows.append((label, str(it.ticks), str(it.waited + it.bad), str(it.ended), ", ".join(waits)))
    yield from columns(rows)


def _lines(found: Profile, source: Source) -> Iterator[str]:
    costs = found.lines()
    shown = sorted(sorted(costs, key=lambda line: -costs[line].all)[:ROWS])
    rows = [("line", "cycles", "ticks", "waits", "text")]
    rows += [(str(line), str(costs[line].all), str(costs[line].ticks), str(costs[line].waits), line_text(source, line)) for line in shown]
    yield from columns(rows)
    if len(costs) > len(shown):
        yield f".. {len(costs) - len(shown)} lines of fewer cycles"


def _streams(found: Profile) -> Iterator[str]:
    rows = [("stream", "depth", "tokens", "least", "mean", "most", "held its writer", "held its reader")]
    for name, it in found.streams.items():
        rows.append((name, str(it.channel.depth), str(it.tokens), str(it.least), f"{it.mean:.2f}", str(it.most), str(it.holds_writer), str(it.holds_reader)))
    yield from columns(rows)


def _bounds(source: Source, bounds: Bound) -> Iterator[str]:
    yield f"What bounds it: {bounds.cycles} cycles in a row, each of which had to wait for the one before"
    rows = [(label, str(cycles), "ticks of this task") for label, cycles in list(bounds.tasks.items())[:PARTS]]
    rows += [(f"memory {name}", str(cycles), "cycles in which it was not ready") for name, cycles in bounds.memories.items()]
    rows += [(f"stream {name}", str(bounds.rooms[name]), "times a place had to become free") for name in list(bounds.rooms)[:PARTS]]
    rows += [(f"line {line}", str(cycles), line_text(source, line)) for line, cycles in list(bounds.lines.items())[:PARTS]]
    yield from columns([("of these", "", ""), *rows])


def _standstill(found: Profile) -> Iterator[str]:
    waits = waiting_for(found)
    around = circle(waits)
    yield "It stands still" + (f": {' -> '.join([*around, around[0]])} wait for each other" if around else "")
    for label, (wait, other) in waits.items():
        yield f"  {label} waits {wait}" + (_end_of(found, other, wait.what) if other else "")
    for label, task in found.tasks.items():
        if task.statuses and task.statuses[-1] == 3:
            yield f"  {label} stands before a wrong token at line {task.machine.place(task.machine.states[task.states[-1]]).line}"


def _end_of(found: Profile, other: str, what: str) -> str:
    has_ended = found.tasks[other].statuses[-1] == 2
    return f", whose {'writer' if what == 'read' else 'reader'} {other} {'has ended' if has_ended else 'has not ended'}"


def _changes(found: Profile, bounds: Bound, changes: Optional[Sequence[Change]]) -> Iterator[str]:
    if changes is not None:
        yield ""
        yield "Changes that were tried"
        yield from columns([(change.text + ":", f"done in cycle {change.cycles}", f"{found.cycles - change.cycles} fewer" if found.is_done else "") for change in changes] or [("no depth and no memory makes it faster", "", "")])
    for line, turns, cycles in shorter_turns(found, bounds):
        yield f"Not tried: a tick less in each of the {turns} turns at line {line} gives {cycles} cycles, as long as nothing else bounds it"


def shorter_turns(found: Profile, bounds: Bound) -> List[Tuple[int, int, int]]:
    """The lines at which half of the critical way or more is spent: how often it passes, and the cycles with a tick less each time."""
    if not found.is_done:
        return []
    return [(line, bounds.turns[line], found.cycles - bounds.turns[line]) for line, cycles in bounds.lines.items() if 2 * cycles >= bounds.cycles and bounds.turns[line] > 1]


def line_text(source: Source, line: int) -> str:
    """A line of the source without the blanks around it."""
    return source.lines.line(line).decode("utf-8", "replace").strip()


def as_json(found: Profile, bounds: Bound, changes: Optional[Sequence[Change]]) -> Dict[str, Any]:
    """The profile as JSON has it; cycles throughout."""
    return {
        "cycles": found.cycles,
        "done": found.is_done,
        "last_tick": found.last_tick(),
        "tasks": {
            label: {
                "task": it.instance.task, "ticks": it.ticks, "waits": [{"what": wait.what, "name": wait.name, "cycles": cycles} for wait, cycles in it.waits.items()],
                "ended": it.ended, "before_wrong_token": it.bad, "lines": {line: [cost.ticks, cost.waits] for line, cost in sorted(it.lines.items())},
            }
            for label, it in found.tasks.items()
        },
        "lines": {line: [cost.ticks, cost.waits] for line, cost in found.lines().items()},
        "streams": {
            name: {
                "depth": it.channel.depth, "tokens": it.tokens, "least": it.least, "mean": round(it.mean, 4), "most": it.most,
                "held_writer": it.holds_writer, "held_reader": it.holds_reader,
            }
            for name, it in found.streams.items()
        },
        "bound": {
            "cycles": bounds.cycles, "tasks": bounds.tasks, "lines": bounds.lines, "memories": bounds.memories, "streams": bounds.streams,
            "waited_for_room": bounds.rooms, "waited_for_token": bounds.tokens,
        },
        "circle": circle(waiting_for(found)),
        "changes": None if changes is None else [{"text": it.text, "cycles": it.cycles} for it in changes],
    }
