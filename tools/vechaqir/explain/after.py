"""What is said after a run that is done: accesses past the end of a memory or an array, which a run passes over."""
from typing import Dict, List, Tuple

from ..machine.untimed import Outcome, Past, PastEnd
from . import pages
from .base import counted
from .replay import Given, has_cells, replay

# The most accesses of which it is said, and more ticks than a second is enough for.
MOST, TICKS = 4, 100_000_000
VERBS = {"load": "loads", "store": "stores to", "read": "reads", "write": "writes"}


def done(run: Given) -> List[str]:
    """The lines after a run that is done."""
    if not has_cells(run.source):
        return []
    found = replay(run, TICKS)
    if found is None:
        return []
    lines = past_ends(found, run.data)
    if found.end == "limit":
        lines.append(f"      = whether an access is past the end of a memory or an array was looked at for {found.ticks:,} ticks; `{pages.tool('report.py')} {run.words}` looks at the whole run")
    return lines


def past_ends(found: Outcome, data: str) -> List[str]:
    """The lines on accesses past an end."""
    lines = [f"      = {said(access, it)}" for access, it in list(found.past.items())[:MOST]]
    if not lines:
        return []
    lines += [f"      = .. and at {len(found.past) - MOST} more places"] * (len(found.past) > MOST)
    lines.append("      = why: past the end a read gives 0, and a write is dropped, in the run and in the circuit")
    return lines + [f"      = {'and' if at else 'instead'}: {it}" for at, it in enumerate(instead(found.past, data))] + ["      = docs/DATA.md"]


def said(access: PastEnd, made: Past) -> str:
    """An access in a sentence."""
    cells = "is empty" if access.cells == 0 else f"has {counted(access.cells, 'cell')}"
    often = f" and {made.times - 1:,} more past the end" if made.times > 1 else ""
    return f"{access.label} {VERBS[access.act]} `{access.name}[{signed(made.first)}]`{often} in line {access.line}: `{access.name}` {cells}"


def signed(index: int) -> int:
    """An index as a signed number, as which one below 0 is meant."""
    return index - (1 << 64) if index >> 63 else index


def instead(past: Dict[PastEnd, Past], data: str) -> List[str]:
    """How long each memory and array has to be, or below what its index has to stay."""
    most: Dict[Tuple[bool, str, int], int] = {}
    for access, made in past.items():
        key = (access.act in ("load", "store"), access.name, access.cells)
        most[key] = max(most.get(key, 0), made.greatest)
    lines = []
    for (is_memory, name, cells), greatest in most.items():
        longer = f"give `{name}` {counted(greatest + 1, 'cell')}" + (f" in {data}" if is_memory and data else "") if greatest < (65_536 if is_memory else 4_096) else ""
        below = "keep the index from 0 on" if greatest >> 63 else f"keep the index below {cells}" if cells else ""
        lines.append(", or ".join(it for it in (longer, below) if it) or f"give `{name}` cells")
    return lines[:MOST]
