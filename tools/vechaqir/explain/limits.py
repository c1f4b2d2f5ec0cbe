"""Why a run or a simulation has passed its limit: which tasks are in a loop that does not end, and where the others wait."""
import re
from typing import List, NamedTuple, Optional

from ..language.matching import SORTS, View
from ..language.network import Network
from ..language.source import Source
from ..machine.untimed import ENDED, Outcome, Running
from . import pages
from .base import listed
from .replay import Given, replay, waits

# How many times the limit a run is followed to see whether it ends, and the most tasks that are named.
TIMES, MOST = 50, 4
LOOPS = ("while", "for", "TAPA_WHILE_NOT_EOT")


class Asked(NamedTuple):
    """What is known of a call that has passed its limit."""

    source: Optional[Source]
    network: Optional[Network]
    run: Optional[Given]
    is_module: bool = False


def limit(told: str, asked: Asked) -> Optional[List[str]]:
    """The lines below a message of a limit of ticks or cycles; None if it is another message."""
    ticks = re.fullmatch(r"tapa: more than (\d+) ticks", told)
    cycles = re.fullmatch(r"tapa: not done after (\d+) cycles", told)
    if ticks:
        return past_ticks(int(ticks[1]), asked)
    if cycles:
        return past_cycles(int(cycles[1]), asked)
    return None


def option(name: str, value: int, is_module: bool) -> str:
    return f"`{name}={value}`" if is_module else f"`--{name} {value}`"


def past_ticks(count: int, asked: Asked) -> List[str]:
    found = replay(asked.run, count * TIMES) if asked.run else None
    lines = [f"      = the joined instances have made {count:,} ticks together, or a detached one alone, and the run has not ended"]
    if found and found.end != "limit" and found.ticks > count:
        what = "is done" if found.end == "done" else "stops, in a deadlock,"
        return lines + [f"      = why: the run {what} after {found.ticks:,} ticks", f"      = instead: give {option('steps', found.ticks, asked.is_module)} or more", "      = docs/COMMAND.md"]
    endless = at_limit(found) if found and found.end == "limit" else by_text(asked.source, asked.network) if asked.source and asked.network else []
    lines += endless or ["      = why: a run without an end is ended there"]
    lines.append(f"      = {'or' if endless else 'instead'}: give {option('steps', count * 10, asked.is_module)} if the run is only long, or smaller data to see whether it ends")
    if asked.run:
        lines.append(f"      = `{pages.tool('look.py')} {asked.run.words} > F.html` shows what each task does in each cycle")
    return lines + ["      = docs/COMMAND.md"]


def at_limit(found: Outcome) -> List[str]:
    """Where each joined instance is that has not ended: those in a loop first, and what the others wait for."""
    left = [it for it in found.running if it.status != ENDED and not it.instance.detached]
    if not left:
        return []
    view = View(left[0].machine.source)
    busy = [it for it in left if it.status == 0]
    lines = [f"      = {spinning(view, it)}" for it in busy[:MOST]]
    lines += [f"      = {waits(it)}" for it in left if it.status != 0][:MOST]
    lines += [f"      = .. and {len(left) - len(lines)} more have not ended"] * (len(left) > len(lines))
    instead = next((it for it in (changed(view, one) for one in busy) if it), "")
    return lines + ["      = why: the run waits for each joined task, and this one does not end" if len(busy) == 1 else "      = why: the run waits for each joined task"] + [f"      = instead: {instead}"] * bool(instead)


def spinning(view: View, it: Running) -> str:
    """An instance that still makes ticks, and its loop."""
    loop = around(view, it.state.start)
    if loop is None:
        return f"{it.instance.label} is at line {it.line}"
    line = view.source.place(view.words[loop.at].begin).line
    names = unchanged(view, loop)
    more = f", whose condition nothing in it changes: {listed(names)} keep{'s' if len(names) == 1 else ''} {'its value' if len(names) == 1 else 'their values'}" if names else ", which has no `break`" if is_endless(view, loop) else ""
    return f"{it.instance.label} is in the loop of line {line}, `{text_of(view, loop)}`{more}"


def changed(view: View, it: Running) -> str:
    """What to write into the loop of an instance."""
    loop = around(view, it.state.start)
    if loop is None:
        return ""
    names = unchanged(view, loop)
    if names:
        return f"change {listed(names, 'or')} in the loop, as by `++{names[0]};`"
    if is_endless(view, loop):
        return "write `break`, a count of turns, or a loop until the end of a transaction; invoke a task that need not end with `tapa::detach`"
    return ""


def by_text(source: Source, network: Network) -> List[str]:
    """The joined instances whose task has a loop without an end, by the text alone."""
    view = View(source)
    tasks = set()
    for at in range(len(view.words)):
        loop = loop_at(view, at)
        task = view.task(at)
        if loop and task and (is_endless(view, loop) or unchanged(view, loop)):
            tasks.add(task.name)
    labels = [it.label for it in network.instances if it.task in tasks and not it.detached]
    if not labels:
        return []
    return [f"      = {listed(labels[:MOST])} {'has' if len(labels) == 1 else 'have'} a loop without an end", "      = why: the run waits for each joined task",
            "      = instead: write `break`, a count of turns, or a loop until the end of a transaction; invoke a task that need not end with `tapa::detach`"]


def past_cycles(count: int, asked: Asked) -> List[str]:
    command = pages.command()
    words = asked.run.words if asked.run else "SRC TOP DATA"
    return [
        f"      = the design has not raised `done` in {count:,} cycles; the report or the dump up to there is written",
        "      = why: a circuit is done when all tasks that are waited for have ended",
        f"      = instead: give {option('cycles', count * 10, asked.is_module)} if it is only long; `{command} run` reports a deadlock, and who waits for whom",
        f"      = `{pages.tool('look.py')} {words} > F.html` shows what each task does in each cycle, and what bounds it",
        f"      = `--vcd` writes every net, and `{pages.tool('waves.py')} F.vcd --fill` draws how full each stream is",
    ]


# ---- loops


class Loop(NamedTuple):
    """A loop: its first lexeme, those of its condition, the one after its head, and the one after its body."""

    at: int
    condition: List[int]
    head: int
    end: int


def loop_at(view: View, at: int) -> Optional[Loop]:
    """The loop that a lexeme begins."""
    if view.text(at) not in LOOPS or view.text(at + 1) != "(" or at + 1 not in view.close:
        return None
    closing = view.close[at + 1]
    semicolons = [it for it in range(at + 2, closing) if view.text(it) == ";" and view.enclosing(it) == at + 1]
    condition = list(range(at + 2, closing))
    if view.text(at) == "for":
        if len(semicolons) != 2:
            return None
        condition = list(range(semicolons[0] + 1, semicolons[1]))
    body = closing + 1
    end = view.close.get(body, body) + 1 if view.text(body) == "{" else next((it + 1 for it in range(body, len(view.words)) if view.text(it) == ";"), body)
    return Loop(at, condition, closing + 1, end)


def around(view: View, offset: int) -> Optional[Loop]:
    """The innermost loop of which a byte of the source is a part."""
    here = view.source.index_at(offset)
    for at in range(min(here, len(view.words) - 1), -1, -1):
        found = loop_at(view, at)
        if found and found.at <= here < found.end:
            return found
    return None


def is_endless(view: View, loop: Loop) -> bool:
    """Whether a loop has a condition that always holds, and no `break`."""
    words = [view.text(it) for it in loop.condition]
    return words in ([], ["true"], ["1"]) and view.text(loop.at) != "TAPA_WHILE_NOT_EOT" and not any(view.text(it) == "break" for it in range(loop.head, loop.end))


def unchanged(view: View, loop: Loop) -> List[str]:
    """The variables of a loop's condition if nothing in the loop changes any of them; none if something may."""
    if view.text(loop.at) == "TAPA_WHILE_NOT_EOT" or any(view.text(it) in (".", "[") for it in loop.condition):
        return []
    names = list(dict.fromkeys(view.text(it) for it in loop.condition if view.is_name(it) and view.text(it) not in view.source.values))
    first = loop.condition[-1] + 1 if loop.condition and view.text(loop.at) == "for" else loop.head
    inside = range(first, loop.end)
    is_changed = any(view.text(it) in names and is_written(view, it) for it in inside) or any(view.text(it) == "break" for it in inside)
    return [] if is_changed else names


def is_written(view: View, at: int) -> bool:
    """Whether a name is assigned, stepped or read into."""
    return view.text(at + 1) in SORTS["ASSIGN"] | SORTS["STEP"] or view.text(at - 1) in ("++", "--", ">>")


def text_of(view: View, loop: Loop) -> str:
    """The head of a loop, on one line."""
    begin, end = view.words[loop.at].begin, view.words[loop.head - 1].end
    text = " ".join(view.source.text[begin:end].decode("utf-8", "replace").split())
    return text if len(text) <= 60 else text[:57] + ".."
