"""What an editor shows of the name under the cursor."""
from typing import List, Optional

from ..explain.base import counted
from ..language.kinds import Kind
from ..language.network import Channel, Network
from ..language.scopes import Name
from ..language.syntax import Task
from . import beside, words
from .analysis import STREAM_SORTS, Analysis
from .beside import Profile

# The most lines of a list, and the most names in a line.
LINES, NAMES = 4, 6


def few(names: List[str]) -> str:
    """The first names of a list in backticks."""
    more = f" and {len(names) - NAMES} more" if len(names) > NAMES else ""
    return ", ".join(f"`{it}`" for it in names[:NAMES]) + more


def bits(kind: Kind) -> str:
    if kind.bits in (0, 1):
        return ""
    least, most = (-(1 << kind.bits - 1), (1 << kind.bits - 1) - 1) if kind.signed else (0, (1 << kind.bits) - 1)
    return f"{kind.bits} bits, {least:,} to {most:,}"


# ---- streams


def parameter_of(known: Analysis, label: Optional[str], net: Network, channel: str) -> str:
    """The parameter by which an instance has a stream."""
    instance = net.instance(label or "")
    task = known.source.tasks.get(instance.task) if instance else None
    found = [it.name for it in (task.parameters if task else []) if instance and instance.bindings.get(it.name) == channel]
    return f" (`{found[0]}`)" if found else ""


def ends(known: Analysis, net: Network, channel: Channel) -> str:
    """Which instances write and read a stream of the flat network."""
    writer = f"written by `{channel.writer}`{parameter_of(known, channel.writer, net, channel.name)}" if channel.writer else "written by no task"
    reader = f"read by `{channel.reader}`{parameter_of(known, channel.reader, net, channel.name)}" if channel.reader else "read by no task"
    depth = "" if channel.depth is None else f"depth {channel.depth}, "
    return f"`{channel.name}`: {depth}{writer}, {reader}."


def channels(known: Analysis, task: Task, name: Name, profile: Optional[Profile], is_saved: bool) -> List[str]:
    """The streams of all networks for which a name stands, with their ends."""
    lines: List[str] = []
    count = 0
    for net in known.networks():
        for flat in known.flat_names(net, task, name):
            channel = net.stream(flat)
            count += channel is not None
            if channel and count <= LINES:
                lines += [ends(known, net, channel)] + beside.of_stream(profile, flat, is_saved)
    return lines + ([f".. and {count - LINES} more"] if count > LINES else [])


def stream(known: Analysis, name: Name, profile: Optional[Profile], is_saved: bool) -> List[str]:
    task = known.task_of(name)
    if task is None:
        return []
    what = next((it for it in task.streams if it.name == name.name), None)
    if what and what.is_array:
        depth = "" if what.depth is None else f", each of depth {what.depth}"
        lines = [f"`{name.name}`: an array of {what.count or 'some'} streams of `{name.kind.word}`{depth}, in `{task.name}`."]
    elif what:
        depth = "" if what.depth is None else f" of depth {what.depth}"
        lines = [f"`{name.name}`: a stream of `{name.kind.word}`{depth}, in `{task.name}`."]
    else:
        verb = "which it reads" if name.sort == "istream" else "which it writes"
        lines = [f"`{name.name}`: a stream of `{name.kind.word}` of `{task.name}`, {verb}."]
    return lines + channels(known, task, name, profile, is_saved)


# ---- other names


def memory(known: Analysis, name: Name) -> List[str]:
    task = known.task_of(name)
    if task is None:
        return []
    lines = [f"`{name.name}`: a memory of `{name.kind.word}`{', which is only read' if name.is_const else ''}, a parameter of `{task.name}`."]
    for net in known.networks():
        flat = [name.name] if net.top == task.name else sorted({it.bindings.get(name.name, "") for it in net.instances + net.uppers if it.task == task.name})
        for it in net.instances:
            tasks = known.source.tasks[it.task]
            found = [p.name for p in tasks.parameters if p.direction == "mmap" and it.bindings.get(p.name) in flat]
            lines += [f"`{it.label}` has it, as `{found[0]}`."] if found else []
    return lines[:LINES + 1]


def task(known: Analysis, name: Name, profile: Optional[Profile], is_saved: bool) -> List[str]:
    found = known.source.tasks.get(name.name)
    if found is None:
        return [f"`{name.name}`: a task."]
    sort = "an upper-level task" if found.is_upper else "a leaf task"
    lines = [f"`{name.name}`: {sort} with {counted(len(found.parameters), 'parameter')}" + (f": {few([it.name for it in found.parameters])}." if found.parameters else ".")]
    labels = [it.label for it in known.instances(name.name)]
    if labels:
        lines.append(f"{counted(len(labels), 'instance')}: {few(labels)}.")
    elif name.name in known.tops():
        lines.append("No task invokes it: a top task.")
    for label in labels[:LINES] if profile and profile.is_current and is_saved else []:
        numbers = profile.numbers("tasks", label) if profile else {}
        lines += [f"`{label}`: {numbers['ticks']:,} ticks, ended for {numbers.get('ended', 0):,} cycles (`{profile.name if profile else ''}`)."] if "ticks" in numbers else []
    return lines


def scalar(known: Analysis, name: Name) -> List[str]:
    own = known.task_of(name)
    what = {"scalar": "a scalar parameter", "local": "a variable", "array": "an array", "constant": "a constant of the file"}[name.sort]
    const = "`const` " if name.is_const and name.sort in ("local", "array") else ""
    where = f" of `{own.name}`" if own else ""
    value = known.source.values.get(name.name) if name.sort == "constant" else None
    front = f"`{name.name}`: {what}{where}, {const}`{name.kind.word}`" + (f" = {value[0]:,}" if value else "")
    return [front + (f" ({bits(name.kind)})." if bits(name.kind) else ".")]


def of_name(known: Analysis, name: Name, profile: Optional[Profile], is_saved: bool) -> List[str]:
    if name.sort in STREAM_SORTS:
        return stream(known, name, profile, is_saved)
    if name.sort == "mmap":
        return memory(known, name)
    if name.sort == "task":
        return task(known, name, profile, is_saved)
    return scalar(known, name) if name.sort in ("scalar", "local", "array", "constant") else [f"`{name.name}`: `tapa::{name.sort}`, which is not in the language."]


def of_word(known: Analysis, at: int) -> List[str]:
    """What a word of the language does."""
    view = known.view
    text, before = view.text(at), view.text(at - 1)
    if before == "." and text == "invoke":
        found: Optional[words.Word] = words.INVOKE
    elif before == ".":
        found = words.EITHER.get(text)
    elif before == "::" and view.text(at - 2) == "tapa":
        found = words.OF_TAPA.get(text)
    else:
        found = words.STATEMENTS.get(text)
    return [f"`{found.written}`: {found.does}"] if found and found.does else []


def shown(known: Analysis, at: Optional[int], line: int, profile: Optional[Profile], is_saved: bool) -> List[str]:
    """The lines that are shown of a lexeme, if there is one, and of its line."""
    name = known.declared(at) if at is not None else None
    lines = of_name(known, name, profile, is_saved) if name else of_word(known, at) if at is not None else []
    return lines + beside.of_line(profile, line, is_saved)
