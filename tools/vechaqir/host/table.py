"""The answer of tools/estimate.py: a table of what tasks use, or the same as JSON."""
from __future__ import annotations

from typing import Dict, List, Optional, Sequence

from . import estimate as estimates
from .columns import columns
from .device import RESOURCES, Amounts, Device
from .estimate import Estimate


def in_words(found: Estimate, groups: Sequence[Sequence[str]], known: Optional[Device]) -> List[str]:
    """The tables of tasks, of instances and of the device's slots, and what is short."""
    rows: List[List[object]] = [["task", "instances", *RESOURCES]]
    rows += [[task, count, *found.tasks[task]] for task, count in found.counts().items()]
    rows += [["all", len(found.labels), *found.uses(found.labels)]]
    if known:
        rows += [[f"all slots, at {known.percent} percent", "", *estimates.added(estimates.rooms_of(known))]]
    number_of = {label: number for number, group in enumerate(groups) for label in group}
    instances: List[List[object]] = [["instance", "group", *RESOURCES]]
    instances += [[label, number_of[label], *found.of(label)] for label in found.labels]
    lines = [*columns(rows), "", *columns(instances)]
    return lines + ([""] + missing if known and (missing := estimates.shortages(found, known, groups)) else [])


def named(uses: Amounts) -> Dict[str, int]:
    return dict(zip(RESOURCES, uses))


def as_object(found: Estimate, groups: Sequence[Sequence[str]], known: Optional[Device]) -> Dict[str, object]:
    """What `--json` prints."""
    given: Dict[str, object] = {
        "tasks": {task: {"instances": count, **named(found.tasks[task])} for task, count in found.counts().items()},
        "instances": {label: named(found.of(label)) for label in found.labels},
        "groups": [list(group) for group in groups],
        "all": named(found.uses(found.labels)),
    }
    if known:
        given["slots"] = [named(room) for room in estimates.rooms_of(known)]
        given["missing"] = estimates.shortages(found, known, groups)
    return given
