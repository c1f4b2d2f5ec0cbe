"""Columns of tasks: how far each is from those that read no stream."""
from __future__ import annotations

from typing import Dict, List, Sequence

from ..language.network import Channel, Instance


def columns(instances: Sequence[Instance], streams: Sequence[Channel]) -> Dict[str, int]:
    """How far each task is from those that read no stream, which are next to their readers; streams that lead back do not count."""
    after: Dict[str, List[str]] = {it.label: [] for it in instances}
    for stream in streams:
        after[stream.writer or ""].append(stream.reader or "")
    sources = set(after) - {reader for stream in streams for reader in [stream.reader] if stream.reader != stream.writer}
    order = _before_their_readers([*(it for it in after if it in sources), *after], after)
    place = {label: number for number, label in enumerate(order)}
    found = {label: 0 for label in after}
    for label in order:
        for other in after[label]:
            if place[other] > place[label]:
                found[other] = max(found[other], found[label] + 1)
    # a task that reads nothing is next to its first reader
    for label in sources:
        found[label] = max(0, min([found[other] for other in after[label]], default=1) - 1)
    return found


def _before_their_readers(starts: Sequence[str], after: Dict[str, List[str]]) -> List[str]:
    """All tasks, each before those that read what it writes where no circle hinders it."""
    done: Dict[str, None] = {}
    seen = set()
    for start in starts:
        waiting = [(start, iter(after[start]))] if start not in seen else []
        seen.add(start)
        while waiting:
            label, rest = waiting[-1]
            other = next((it for it in rest if it not in seen), None)
            if other is None:
                done[label] = None
                waiting.pop()
            else:
                seen.add(other)
                waiting.append((other, iter(after[other])))
    return list(done)[::-1]
