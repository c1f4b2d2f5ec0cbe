"""Reports for people: numbers signed by their kinds, long streams shortened, and what a report does not show said."""
from __future__ import annotations

from dataclasses import dataclass
from typing import Any, Dict, Iterator, List, Mapping, Optional, Tuple

from ..host.report import Report, Shape, parse, text_of, with_signs
from ..language.network import Network
from ..measure.profile import Profile

# The most values of a line, of which half are the first and half the last ones.
SHOWN = 24


@dataclass
class Row:
    """A stream or a memory of a report: its values as they are printed, and what else is to be said of it."""

    what: str
    name: str
    kind: str
    values: List[str]
    note: str = ""


def shapes(network: Network) -> Tuple[Dict[str, Shape], Dict[str, Shape]]:
    """Bits and sign of each stream and of each memory by name."""
    return {it.name: (it.kind.bits, it.kind.signed) for it in network.streams}, {it.name: (it.kind.bits, it.kind.signed) for it in network.memories}


def signed_report(network: Network, out: str, err: str = "") -> Report:
    """The report of a call's outputs with each number as C++ would print it."""
    return with_signs(parse(out, err), *shapes(network))


def rows(network: Network, report: Report, is_run: bool) -> List[Row]:
    """The lines of a report with signs; `is_run` says that `run` made it, which shows of detached tasks no more than joined ones have to do with."""
    kinds = {**{it.name: it.kind.word for it in network.streams}, **{it.name: it.kind.word for it in network.memories}}
    found = []
    for name, tokens in report.streams.items():
        note = _unshown(network, name) if is_run and report.end == "done" else ""
        found.append(Row("stream", name, kinds.get(name, ""), [str(it) for it in tokens], note))
    found += [Row("memory", name, kinds.get(name, ""), [str(it) for it in cells]) for name, cells in report.memories.items()]
    return found


def _unshown(network: Network, name: str) -> str:
    """What a run's report leaves out of a stream, whose writer it does not wait for."""
    stream = network.stream(name)
    writer, reader = (network.instance(it or "") for it in (stream.writer, stream.reader)) if stream else (None, None)
    if not writer or not writer.detached or not reader:
        return ""
    return "not shown: its reader is detached" if reader.detached else "those that its reader took: its writer is detached"


def shortened(values: List[str]) -> str:
    """Values in a line; of many the first and the last ones, with how many are left out."""
    if len(values) <= SHOWN:
        return " ".join(values)
    half = SHOWN // 2
    return " ".join([*values[:half], f".. {len(values) - SHOWN} more ..", *values[-half:]])


def lines(found: List[Row], report: Report, is_long: bool, profile: Optional[Profile]) -> Iterator[str]:
    """The report for people; with a profile of the circuit the ticks by task and the accesses past the end of a memory or an array."""
    for row in found:
        values = " ".join(row.values) if is_long else shortened(row.values)
        count = f" [{len(row.values)}]" if len(row.values) > SHOWN and not is_long else ""
        yield f"{row.what} {row.name}{count}: {values}".rstrip() + (f" ({row.note})" if row.note else "")
    if report.end:
        yield f"{report.end} {report.count}"
    if profile:
        took = f"takes {profile.cycles} cycles" if profile.is_done else f"is not done after {profile.cycles} cycles; its last tick was made in cycle {profile.last_tick()}"
        yield "ticks by task: " + ", ".join(f"{label} {it.ticks}" for label, it in profile.tasks.items()) + f"; the circuit {took}"
        yield from past_end(profile)


PAST = {"load": "loads 0 from", "store": "stores nothing to", "read": "reads 0 from", "write": "writes nothing to"}


def past_end(profile: Profile) -> Iterator[str]:
    """What is said of accesses past the end of a memory or an array."""
    for access, made in profile.past_end.items():
        yield f"past the end: {access.label} {PAST[access.act]} {access.name}[{made.first}]" + (f" and {made.times - 1} more" if made.times > 1 else "") + f", line {access.line}"


def as_json(found: List[Row], report: Report, profile: Optional[Profile]) -> Dict[str, Any]:
    """The report as JSON has it: tokens and cells as numbers, the end of a transaction as `"eot"`."""
    made: Dict[str, Any] = {
        "streams": {row.name: [it if it == "eot" else int(it) for it in row.values] for row in found if row.what == "stream"},
        "memories": {row.name: [int(it) for it in row.values] for row in found if row.what == "memory"},
        "notes": {row.name: row.note for row in found if row.note},
        "end": report.end,
        "count": report.count,
        "messages": report.messages,
    }
    if profile:
        made["ticks"] = {label: it.ticks for label, it in profile.tasks.items()}
        made["cycles"] = profile.cycles if profile.is_done else None
        made["past_end"] = [{**access._asdict(), **it._asdict()} for access, it in profile.past_end.items()]
    return made


def first_difference(made: Mapping[str, Any], expected: Mapping[str, Any]) -> Optional[str]:
    """Where a report as JSON differs from what is expected, first: of `streams` and `memories` those that the expectation names, and the `end` where it has one."""
    for group, word in (("streams", "token"), ("memories", "cell")):
        for name, wanted in expected.get(group, {}).items():
            got = made[group].get(name)
            if got is None:
                return f"there is no {group[:-1] if group == 'streams' else 'memory'} {name}"
            at = next((at for at, pair in enumerate(zip(got, wanted)) if pair[0] != pair[1]), None)
            if at is not None:
                return f"{name}: {word} {at} is {got[at]}, and {wanted[at]} is expected"
            if len(got) != len(wanted):
                return f"{name}: {len(got)} {word}s, and {len(wanted)} are expected"
    return f"the end is {made['end']}, and {expected['end']} is expected" if "end" in expected and made["end"] != expected["end"] else None


def signed_lines(network: Network, text: str) -> str:
    """The lines of a report with signs, whole; other lines are passed on."""
    found = []
    for line in text.splitlines():
        one = signed_report(network, line)
        found.append(text_of(one) if one.streams or one.memories else line + "\n")
    return "".join(found)
