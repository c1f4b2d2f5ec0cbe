"""Why rules on tasks, their invokes, streams and memories refuse a source: the codes C3 at invokes, C4, C5, C7, C10, C11 and C12."""
from typing import Dict, List, NamedTuple, Optional, Tuple

from ..language import kinds
from ..language.expressions import evaluated
from ..language.matching import matches
from ..language.network import Instance, elements, network
from ..language.syntax import Argument, Invoke, Parameter, Task
from . import pages
from .base import Case, Why, article, counted, few, listed
from .grammar import of_row
from .names import LONG, RUN


# The most ends of a stream that are named.
MOST = 4
COMPUTED = "an upper-level task only joins others: it has no states that compute"
WIDTHS = "both ends of the wires have one width"


class End(NamedTuple):
    """A leaf instance that has a stream or a memory at one of its parameters."""

    instance: Instance
    parameter: Parameter


def ends(case: Case, task: str, name: str, directions: Tuple[str, ...]) -> List[End]:
    """The leaf instances below a task that have one of its streams or memories, by the name that it has there."""
    source = case.view.source
    found = []
    for instance in network(source, task).instances:
        for parameter in source.tasks[instance.task].parameters:
            if instance.bindings.get(parameter.name) == name and parameter.direction in directions:
                found.append(End(instance, parameter))
    return found


def shown(found: List[End]) -> str:
    """The instances with their parameters; only the first of many."""
    more = f" and {len(found) - MOST} more" if len(found) > MOST else ""
    parameters = list(dict.fromkeys(f"`{it.parameter.name}` of `{it.instance.task}`" for it in found[:MOST]))
    return listed(f"{it.instance.label}" for it in found[:MOST]) + f" ({', '.join(parameters)})" + more


# ---- C3 at invokes

def typed(parameter: Parameter) -> str:
    """A parameter's type as it is written."""
    if parameter.direction == "scalar":
        return parameter.kind.word
    inner = "const " * (parameter.is_const and parameter.direction == "mmap") + parameter.kind.word
    return f"{parameter.direction}<{inner}>"


class Given(NamedTuple):
    """What an argument is: its sort, its kind where it has one, and whether it is read alone."""

    sort: str
    kind: kinds.Kind
    is_const: bool


def given(case: Case, task: Task, text: str) -> Given:
    name = text.split("[")[0]
    for stream in task.streams:
        if name in (stream.name, *elements(stream)):
            return Given("stream", stream.kind, False)
    parameter = task.parameter(text)
    if parameter:
        return Given(parameter.direction, parameter.kind, parameter.is_const)
    if text in case.view.source.values:
        return Given("constant", case.view.source.values[text][1], True)
    if text in case.view.source.tasks:
        return Given("task", kinds.INT, True)
    return Given("expression", kinds.INT, True)


def argument(case: Case, task: Task, called: Task, number: int, text: str) -> Why:
    """An argument that does not fit its parameter; numbers of arguments count from 1, the task's name left out."""
    wanted, got = called.parameters[number], given(case, task, text)
    front = f"argument {number + 1} of `{called.name}` is `{wanted.name}`, {article(typed(wanted))}"
    what = LONG.get(got.sort, "an expression")
    order = "the arguments are in the order of the parameters"
    if wanted.direction == "scalar":
        if got.sort in ("expression", "constant"):
            return Why([f"{front}; `{text}` is computed"], "give a scalar parameter, a constant of the file or a number, and let a task compute the rest", reason=COMPUTED)
        return Why([f"{front}, and `{text}` is {LONG.get(got.sort, 'not a scalar')}"], f"give a scalar parameter, a constant or a number; {order}")
    if wanted.direction == "mmap":
        if got.sort != "mmap":
            return Why([f"{front}, and `{text}` is {what}"], f"give a memory parameter of this task; {order}")
        if got.is_const and not wanted.is_const:
            return Why([f"{front}, which is stored into, and `{text}` is a `mmap<const {got.kind.word}>`"], f"declare `tapa::mmap<{got.kind.word}> {text}` in this task, or `const` in `{called.name}`")
        return Why([f"{front}, and `{text}` has cells of `{got.kind.word}`"], "give both one type", reason=WIDTHS)
    if got.sort in ("stream", wanted.direction):
        carries = "carries" if got.sort == "stream" else "is a parameter that carries"
        return Why([f"{front}, and `{text}` {carries} `{got.kind.word}`"], f"give both one type: `{wanted.kind.word}` where `{text}` is declared, or `{got.kind.word}` at `{wanted.name}` of `{called.name}`", reason=WIDTHS)
    if got.sort in ("istream", "ostream"):
        return Why([f"{front}, and `{text}` is {article(typed(task.parameter(text) or wanted))}"], "give a stream of the same direction", reason="a task has one end of a stream, and the other task the other end")
    return Why([f"{front}, and `{text}` is {what}"], f"declare a stream here, `tapa::stream<{wanted.kind.word}> q;`, and give it; {order}")


def invoke_at(case: Case) -> Optional[Tuple[Task, Invoke, Optional[Argument]]]:
    """The invoke in whose parentheses the place is, and the argument there; None for the task's name."""
    task, view = case.view.task(case.at), case.view
    for invoke in task.invokes if task else []:
        name = view.source.index_at(view.source.lines.offset(invoke.place))
        if task and name <= case.at < view.close.get(name - 1, name):
            before = [it for it in invoke.arguments if it.place <= case.place]
            return task, invoke, before[-1] if before else None
    return None


def fits(wanted: Parameter, got: Given) -> bool:
    """Whether an argument is of a sort that a parameter takes."""
    if wanted.direction in ("istream", "ostream"):
        return got.sort in ("stream", wanted.direction)
    return got.sort == "mmap" if wanted.direction == "mmap" else got.sort in ("scalar", "constant", "expression")


def without_argument(case: Case, task: Task, called: Task, invoke: Invoke) -> List[str]:
    """The parameters for which there is no argument, by what each argument is."""
    missing, arguments = [], [given(case, task, it.text) for it in invoke.arguments]
    for parameter in called.parameters:
        if arguments and fits(parameter, arguments[0]):
            arguments.pop(0)
        else:
            missing.append(parameter.name)
    return missing if not arguments else [it.name for it in called.parameters[len(invoke.arguments):]]


def number_of_arguments(case: Case, task: Task, called: Task, invoke: Invoke) -> Why:
    wanted = ", ".join(f"{typed(it)} {it.name}" for it in called.parameters)
    got = ", ".join(it.text for it in invoke.arguments)
    missing = without_argument(case, task, called, invoke)[:max(len(called.parameters) - len(invoke.arguments), 0)]
    more = [it.text for it in invoke.arguments[len(called.parameters):]]
    says = [f"`{called.name}` has {counted(len(called.parameters), 'parameter')} ({wanted or 'none'}), and gets {counted(len(invoke.arguments), 'argument')} ({got or 'none'})"]
    return Why(says, f"give an argument for {listed(missing)}" if missing else f"leave out {listed(more)}", reason="each parameter is a port, which is connected once")


def at_invoke(case: Case) -> Optional[Why]:
    """An invoke whose task or arguments are not right."""
    if case.word(-1) == "::" and case.word(-2) == "tapa" and case.word(-3) == "<":
        return Why([f"`tapa::{case.word()}` is not a mode of an invoke"], "write `tapa::join`, or nothing, for a task that the run waits for, and `tapa::detach` for one that need not end",
                   reason="all tasks run at once, and a run ends when those that are waited for have ended")
    found = invoke_at(case)
    if not found:
        return None
    task, invoke, it = found
    called = case.view.source.tasks.get(invoke.task)
    if called is None:
        tasks = [name for name, other in case.view.source.tasks.items() if other.place < case.place and name != task.name]
        return Why([f"`{invoke.task}` is not a task", f"the tasks before it are {few(tasks)}" if tasks else "no task is before it"], "invoke one of the tasks before it")
    if it is None:
        return number_of_arguments(case, task, called, invoke)
    number = invoke.arguments.index(it)
    return argument(case, task, called, number, it.text) if number < len(called.parameters) else number_of_arguments(case, task, called, invoke)


def at_top(case: Case) -> Optional[Why]:
    """The top task is a leaf, or has a stream parameter."""
    if case.word(-1) != "void":
        return None
    task = case.view.source.tasks.get(case.word())
    if task is None:
        return None
    streams = [it.name for it in task.parameters if it.direction in ("istream", "ostream")]
    uppers = [it.name for it in case.view.source.tasks.values() if it.is_upper and it.name != task.name]
    if task.is_upper:
        row = of_row("a stream parameter of the top task")
        return row._replace(says=[f"the top task `{task.name}` has the stream parameter{'s' * (len(streams) > 1)} {listed(streams)}, which nothing outside writes or reads"])
    says = [f"the top task `{task.name}` invokes no task"]
    if uppers:
        return Why(says, f"give an upper-level task as `TOP`: {listed(uppers, 'or')}", reason=RUN)
    return Why(says, "write an upper-level task around it", [f"void Top(..) {{ tapa::task().invoke({task.name}, ..); }}"], reason=RUN)


# ---- C4, C5, C7, C12

def element(case: Case) -> str:
    """The stream that is declared at the place: of an array the element."""
    return case.written if case.written.startswith(case.word()) else case.word()


def one_end(case: Case) -> Optional[Why]:
    """A stream that not exactly one leaf instance writes, or reads."""
    task = case.view.task(case.at)
    if task is None:
        return None
    is_writer = case.code == "C4"
    name = element(case)
    found = ends(case, task.name, name, ("ostream" if is_writer else "istream",))
    other = ends(case, task.name, name, ("istream" if is_writer else "ostream",))
    stream = f"`{name}`" + (f" of the array `{case.word()}`" if name != case.word() else "")
    page = f"docs/REFUSALS.md, {case.code}"
    if not found:
        here = f"; {'it is read by' if is_writer else 'it is written by'} {shown(other)}" if other else ""
        reason = "its reader would wait for ever" if is_writer else "once it is full, its writer would wait for ever"
        direction = "ostream" if is_writer else "istream"
        return Why([f"no task {'writes' if is_writer else 'reads'} the stream {stream}{here}"], f"give `{name}` to an `{direction}` parameter of the task that {'writes' if is_writer else 'reads'} it, or leave the stream out",
                   [f"void F(tapa::{direction}<..>& {name}) {{ .. }}", f".invoke(F, {name})"], page, reason)
    says = [f"{counted(len(found), 'parameter')} {'write' if is_writer else 'read'} the stream {stream}: {shown(found)}"]
    if is_writer:
        return Why(says, "give each writer a stream of its own, and merge them in a task that fixes the order", pages.way_round("C4"), page)
    return Why(says, "put a task between them that reads each token once and writes it twice", pages.way_round("C5"), page)


def memory(case: Case) -> Optional[Why]:
    """A memory of the top task that not exactly one leaf instance has, or that a detached one has."""
    task = case.view.source.tasks.get(case.top or "") or next((it for it in case.view.source.tasks.values() if any(p.place == case.place for p in it.parameters)), None)
    if task is None:
        return None
    name = case.word()
    found = ends(case, task.name, name, ("mmap",))
    page = f"docs/REFUSALS.md, {case.code}"
    if case.code == "C12":
        detached = [it for it in found if it.instance.detached]
        reads = all(it.parameter.is_const for it in detached)
        instead = f"declare `tapa::mmap<const ..> {name}` in `{task.name}`, since it is only read" if reads else "give the memory to a joined task, and join the two by a stream"
        return Why([f"the detached task {shown(detached)} has the memory `{name}`"], instead, [] if reads else pages.way_round("C12"), page)
    if not found:
        return Why([f"no task has the memory `{name}`"], f"give `{name}` to a task, or leave it out of `{task.name}`", [], page, "a memory is the port of one task")
    return Why([f"{counted(len(found), 'parameter')} have the memory `{name}`: {shown(found)}"], "let one task have it and pass on what it reads by streams, or give each a memory of its own", pages.way_round("C7"), page)


def itself(case: Case) -> Why:
    return Why([f"`{case.word()}` invokes itself"], "write a loop in one task, a stream that leads back, or an invoke for each turn", pages.way_round("C10"))


# ---- C11

def limit(case: Case) -> Why:
    """A number past its limit."""
    view, at = case.view, case.at
    most = case.text.split()[-1]
    value = constant_at(case)
    more = f", and here it is {value:,}" if value is not None else ""
    if matches(view, "tapa :: stream|streams < ... , @ANY", at) and view.text(at + 1) in (">", ",") or view.text(at) == "(" and view.text(view.close.get(at, at) + 1) == ">":
        return Why([f"a stream's depth is 1 to {most}{more}"], "write a smaller depth, and keep what must wait longer in a memory" if value is None or value > 0 else "write a depth of at least 1; without one it is 2")
    if view.text(at - 1) == "[":
        if most == "4096" and value is not None and value < 1:
            return Why([f"an array has 1 to {most} cells{more}"], "write a size of at least 1")
        if most == "4096":
            return Why([f"an array has 1 to {most} cells{more}"], "write a smaller array, or use a memory of the top task", ["m[0] = n;"])
        return Why([f"the arrays of a task have at most {most} cells together, which this one passes"], "write smaller arrays, use a memory, or divide the task")
    return of_program(case, most)


def of_program(case: Case, most: str) -> Why:
    """A limit of a task or of the whole program."""
    view, at = case.view, case.at
    task = view.task(at)
    name = task.name if task else ""
    if view.text(at) == "}":
        return Why([f"`{name}` has more than {most} states: each read, write, assignment and test is one"], "divide it into several tasks with streams between them, or write loops for repeated lines")
    sorts: Dict[str, Why] = {
        "512": Why([f"with `{case.word()}` the program has more than {most} leaf instances"], "invoke fewer tasks that do more each"),
        "8": Why([f"`{case.word()}` is below more than {most} levels of upper-level tasks"], "invoke leaf tasks in the upper ones' chains"),
    }
    if most in sorts:
        return sorts[most]
    if task and task.is_upper:
        return Why([f"with `{case.word()}` the program has more than {most} streams"], "declare fewer streams, each with more in a token")
    return Why([f"`{name}` has more than {most} variables, its scalar parameters among them"], "write an array for many variables, or divide the task")


def constant_at(case: Case) -> Optional[int]:
    """The value of the constant that begins at the place."""
    view, at = case.view, case.at
    value = evaluated(view.words[at:view.close.get(at, at) + 1], view.source.values)
    return value[0] if value else None
