"""The groups of a program's instances: two that reach each other along streams are one group, which a plan keeps in one slot."""
from __future__ import annotations

import bisect
import itertools
import re
from collections import Counter
from typing import Any, Dict, List, NamedTuple, Sequence, Set, Tuple

from ..language import source as sources


class NotFollowed(LookupError):
    """A source in which the program finds other instances or streams than are read here."""


class Link(NamedTuple):
    """A stream between two instances, by their labels, with its bits as `tapa plan` tells them."""

    name: str
    writer: str
    reader: str
    width: int


def links(path: str, top: str, labels: Sequence[str], widths: Dict[str, int]) -> List[Link]:
    """The streams of a source's top task with their ends. The labels and the widths of the streams are those that the program tells;
    NotFollowed where the source, as it is read here, has others. OSError where it cannot be read."""
    network = sources.network(sources.read(path), top)
    found = [Link(it.name, it.writer or "", it.reader or "", widths.get(it.name, 0)) for it in network.streams]
    ends = {end for link in found for end in (link.writer, link.reader)}
    if [it.label for it in network.instances] != list(labels) or [link.name for link in found] != list(widths) or not ends <= set(labels):
        raise NotFollowed(f"{path}: the instances and streams of {top} could not be followed as the program follows them")
    return found


def groups(labels: Sequence[str], joined: Sequence[Link]) -> List[List[str]]:
    """The groups of instances, in the order of the first instance of each, as are the instances of a group."""
    after: Dict[str, List[str]] = {label: [] for label in labels}
    for link in joined:
        after[link.writer].append(link.reader)
    reach = {label: _reached(label, after) for label in labels}
    found: List[List[str]] = []
    taken: Set[str] = set()
    for label in labels:
        if label not in taken:
            found.append([other for other in labels if other in reach[label] and label in reach[other]])
            taken.update(found[-1])
    return found


def by_structure(found: Sequence[List[str]], joined: Sequence[Link]) -> List[List[str]]:
    """Groups in an order that the order of invokes does not change: by the names of their streams and tasks, without the numbers of instances, then by those of
    their neighbours, and so on. Of groups that are still alike one goes first, and those beside it follow it."""
    group_of = {label: at for at, group in enumerate(found) for label in group}
    names: List[List[str]] = [[] for _ in found]
    near: List[List[Tuple[bool, int, int]]] = [[] for _ in found]
    for link in joined:
        writer, reader, name = group_of[link.writer], group_of[link.reader], re.sub(r"\$\d+\$", "$", link.name)
        names[writer].append(name + " out")
        names[reader].append(name)
        near[writer].append((True, link.width, reader))
        near[reader].append((False, link.width, writer))
    tasks = [sorted(label.split("$")[-2] for label in group) for group in found]
    ranks = _ranked([(sorted(name), task) for name, task in zip(names, tasks)])
    while True:
        finer = _ranked([(rank, sorted((is_out, width, ranks[other]) for is_out, width, other in links)) for rank, links in zip(ranks, near)])
        if max(finer, default=0) == max(ranks, default=0):
            alike = [rank for rank, count in sorted(Counter(ranks).items()) if count > 1]
            if not alike:
                return [found[at] for at in sorted(range(len(found)), key=ranks.__getitem__)]
            first = ranks.index(alike[0])
            finer = _ranked([(rank, at != first) for at, rank in enumerate(ranks)])
        ranks = finer


def _ranked(keys: Sequence[Any]) -> List[int]:
    """The place of each key among all that differ."""
    distinct = [key for key, _ in itertools.groupby(sorted(keys))]
    return [bisect.bisect_left(distinct, key) for key in keys]


def _reached(start: str, after: Dict[str, List[str]]) -> Set[str]:
    """An instance and all to which streams lead from it."""
    reached, waiting = {start}, [start]
    while waiting:
        for label in after[waiting.pop()]:
            if label not in reached:
                reached.add(label)
                waiting.append(label)
    return reached
