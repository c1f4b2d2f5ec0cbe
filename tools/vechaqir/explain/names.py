"""Why rules on single names refuse a source: the codes C1, C2, C3 within statements, C6, C8 and C9."""
import os
import re
from typing import Dict, List, Optional, Tuple

from ..language import kinds, scopes, source
from ..language.expressions import evaluated
from ..language.matching import SORTS, View, matches
from ..language.scopes import Name
from .base import Case, Why, few, listed
from .grammar import found_row
from .pages import porting

READS, WRITES = ("read", "peek", "eot", "open"), ("write", "close")
METHODS = {"read": "read()", "peek": "peek(nullptr)", "eot": "eot(nullptr)", "open": "open()", "write": "write(e)", "close": "close()"}
LONG = {"istream": "an input stream", "ostream": "an output stream", "mmap": "a memory", "scalar": "a scalar parameter", "local": "a variable", "array": "an array",
        "constant": "a constant of the file", "task": "a task", "stream": "a stream"}
PLURAL = {"istream": "parameters", "ostream": "parameters", "mmap": "parameters", "scalar": "parameters", "local": "variables", "array": "variables", "constant": "constants", "stream": "streams"}
DIVISORS = {"mmap": "a value of a memory,", "array": "a cell of an array,", "istream": "a token of a stream,", "scalar": "a scalar parameter,", "local": "a variable,"}
ONE_END = "a task has one end of a stream, and the other task the other end"
SIZE = "registers and memories of a circuit have sizes that are known before anything runs"
RUN = "a run begins with one task that joins the others by streams"


# ---- C1

def headers(case: Case) -> List[Tuple[str, source.Source]]:
    """The headers beside a source that it includes by `#include \"..\"`, each as it is read."""
    path = case.view.source.path
    found = []
    for name in re.findall(rb'^[ \t]*#[ \t]*include[ \t]*"([^"\n]+)"', case.view.source.text, re.M):
        try:
            text = name.decode("utf-8", "replace")
            found.append((text, source.read(os.path.join(os.path.dirname(path or ""), text))))
        except OSError:
            continue
    return found


def unknown_top(case: Case) -> Why:
    """A top task that the source has not."""
    tasks = case.view.source.tasks
    if not tasks:
        return Why(["the source has no task, so it has no top task"], "write the tasks, and name the upper-level one as `TOP`, the word after the source's name", reason=RUN)
    front = f"the source has no task `{case.top}`: its tasks are {few(tasks)}" if case.top else f"the top task is none of the source's tasks {few(tasks)}"
    invoked = {invoke.task for task in tasks.values() for invoke in task.invokes}
    uppers = [it.name for it in tasks.values() if it.is_upper]
    tops = [name for name in uppers if name not in invoked] or uppers
    if tops:
        return Why([front], f"give {few(tops)} as `TOP`, which {'invokes others, and which no other invokes' if len(tops) == 1 else 'invoke others, and which no other invokes'}", reason=RUN)
    return Why([front], f"write an upper-level task `{case.top or 'Top'}`, which invokes these", [f"void {case.top or 'Top'}(..) {{ tapa::task().invoke({next(iter(tasks))}, ..); }}"], reason=RUN)


def declared_here(case: Case) -> List[str]:
    """The names that can be used at the place, by their sorts, with the lines in which they are declared."""
    sorts: Dict[str, List[Name]] = {}
    for name in scopes.visible(case.view, case.at).values():
        if name.sort != "task":
            sorts.setdefault(PLURAL.get(name.sort, "other names"), []).append(name)
    parts = []
    for sort, names in sorts.items():
        lines = sorted({case.line(it.at) for it in names})
        where = f"line {lines[0]}" if len(lines) == 1 else f"lines {lines[0]} to {lines[-1]}"
        parts.append(f"{sort} {few(it.name for it in names)} ({where})")
    return ["declared here are " + ", ".join(parts[:-1]) + (" and " if parts[1:] else "") + parts[-1]] if parts else ["no name is declared here"]


def unknown(case: Case) -> Why:
    """A name that is not declared where it is used."""
    view, word = case.view, case.word()
    row = found_row(case)
    if row:
        return row
    elsewhere = scopes.declared_elsewhere(view, word, case.at)
    if elsewhere and elsewhere.at > case.at and elsewhere.sort in ("task", "constant"):
        return Why([f"the {elsewhere.sort} `{word}` is declared below, in line {case.line(elsewhere.at)}"], f"move `{word}` up, before what uses it")
    if elsewhere and case.at < len(view.words) and view.task(elsewhere.at) is view.task(case.at):
        where = "in a block that has ended" if elsewhere.end <= case.at else "after this place"
        return Why([f"`{word}` is declared in line {case.line(elsewhere.at)}, {where}"], "declare it before its use, outside of the block")
    for name, header in headers(case):
        if word in header.constants or word in header.tasks or re.search(rb"\b" + word.encode("ascii", "replace") + rb"\b", header.text):
            return Why([f"`{word}` is declared in `{name}`, and `#include` lines are skipped"], f"put what the header declares into this file; `{porting()}` does", reason="a source is one file, whose bytes decide what it means")
    included = [name for name, _ in headers(case)]
    says = [f"`{word}` is not declared"] + [f"what {listed(included)} declares is not read: `#include` lines are skipped"] * bool(included)
    if view.text(case.at - 1) == "(" and view.text(case.at - 2) in ("invoke", ">"):
        tasks = [it.name for it in view.items if it.kind == "task" and it.end <= case.at]
        return Why(says + [f"the tasks before it are {few(tasks)}" if tasks else "no task is before it"], "invoke one of the tasks before it, or declare it there")
    return Why(says + declared_here(case), "declare it before its use: a constant of the file, a parameter or a variable")


def doubled(case: Case) -> Why:
    word = case.word()
    first = min((it for it in scopes.names(case.view) if it.name == word and it.begin < case.at < it.end), key=lambda it: -it.at, default=None)
    where = f" in line {case.line(first.at)}, as {LONG.get(first.sort, 'a name')}," if first else ""
    return Why([f"`{word}` is declared{where} and here again, in one block", "the parameters of a task and its outermost statements are one block"], "give one of the two another name")


# ---- C3 within the statements of a task

def written(case: Case) -> bool:
    """Whether the name at the place is assigned, stepped or read into."""
    view = case.view
    at = view.close[case.at + 1] + 1 if case.word(1) == "[" and case.at + 1 in view.close else case.at + 1
    return view.text(at) in SORTS["ASSIGN"] | SORTS["STEP"] or view.text(case.at - 1) in ("++", "--", ">>")


def of_stream(case: Case, name: Name) -> Why:
    """A stream that is used against its direction, or without a method."""
    word = name.name
    is_input = name.sort == "istream"
    if case.word(1) == "." or case.word(1) in ("<<", ">>") or case.word(-2) == "TAPA_WHILE_NOT_EOT":
        able = "it is read, by " + listed([*(METHODS[it] for it in READS), ">>"]) if is_input else "it is written, by " + listed([*(METHODS[it] for it in WRITES), "<<"])
        other = "ostream" if is_input else "istream"
        return Why([f"`{word}` is an `{name.sort}`: {able}"], f"{'write to' if is_input else 'read from'} a parameter `tapa::{other}<{name.kind.word}>&`", reason=ONE_END)
    if case.word(1) == "[":
        return Why([f"`{word}` is one stream, and an index takes a cell of an array"], f"write `{word}.read()`" if is_input else f"write `{word}.write(e)`")
    return Why([f"`{word}` is a stream, and a value is needed here"], f"take a token by `{word}.read()`, or look at it by `{word}.peek(nullptr)`" if is_input else f"write a token by `{word} << e`")


def of_memory(case: Case, name: Name) -> Why:
    if case.word(1) == "[" and name.is_const:
        return Why([f"`{name.name}` is a `tapa::mmap<const {name.kind.word}>`, which is only read"], f"write `tapa::mmap<{name.kind.word}>` in this task and in those above it")
    return Why([f"`{name.name}` is a memory, and a value is needed here"], f"write a cell of it: `{name.name}[j]`")


def of_array(case: Case, name: Name) -> Why:
    if case.word(1) == "[":
        return Why([f"the array `{name.name}` is `const`"], "declare it without `const`, and store into each cell")
    return Why([f"`{name.name}` is an array, and a value is needed here" + (": an array has no methods" if case.word(1) == "." else "")], f"write a cell of it, `{name.name}[j]`, and a loop for all cells")


def of_variable(case: Case, name: Name) -> Why:
    """A scalar, an array or a constant."""
    word, behind = name.name, case.word(1)
    kind = name.kind.word or "int"
    if case.word(-1) == "[" and matches(case.view, "KIND NAME [ @NAME", case.at) or matches(case.view, "tapa :: stream < KIND , @NAME", case.at):
        what = "a local `const`" if name.sort == "local" and name.is_const else LONG[name.sort]
        return Why([f"`{word}` is {what}, and a size is needed here"], "write a number or a constant of the file", ["const int SIZE = 8;", "void F(..) { int line[SIZE]; }"], reason=SIZE)
    if name.sort == "array":
        return of_array(case, name)
    if written(case) and (name.is_const or name.sort == "constant"):
        what = "a local `const`" if name.sort == "local" else LONG[name.sort]
        return Why([f"`{word}` is constant: {what}, declared in line {case.line(name.at)}"], "write to a variable that begins with its value", [f"{kind} {word}_now = {word};"])
    if name.kind.bits == 1 and (behind in SORTS["STEP"] or case.word(-1) in SORTS["STEP"]):
        return Why([f"`{word}` is a `bool`, which has no `++`"], f"write `{word} = true;`", reason="C++17 removed `++` of a `bool`")
    if case.word(-2) == "TAPA_WHILE_NOT_EOT":
        return Why([f"`{word}` is {LONG[name.sort]}, and a stream is needed here"], "name an `istream` parameter of the task")
    if behind == "[":
        return Why([f"`{word}` is {LONG[name.sort]}, and an index takes a cell of an array"], "declare an array, or leave out the index", [f"{kind} {word}[N];"])
    if behind in (".", "<<", ">>"):
        return Why([f"`{word}` is {LONG[name.sort]}, and a stream is needed here"], "name a stream parameter of the task" + (f"; to shift write `{word} = {word} {behind} 1;`" if behind != "." else ""))
    return Why([f"`{word}` is {LONG[name.sort]}, which has no use here"], "write a variable, or a method of a stream")


def wrong_kind(case: Case) -> Optional[Why]:
    """A name of the wrong sort within the statements of a leaf task, or in a constant of the file."""
    word = case.word()
    if case.word(-1) == "." and word in METHODS:
        return Why([f"`{case.word(-2)}.{word}` gives no value, and a value is needed here"], "write it as a statement of its own")
    if word in ("break", "continue"):
        return Why([f"`{word}` is outside of a loop"], "put a loop around it, or use `if` with `else`", reason=f"`{word}` names the innermost loop around it")
    row = found_row(case)
    name = scopes.visible(case.view, case.at).get(word)
    if row or not name:
        return row
    if name.sort in ("istream", "ostream", "stream"):
        return of_stream(case, name)
    if name.sort == "mmap":
        return of_memory(case, name)
    if name.sort == "task":
        return Why([f"`{word}` is a task, and a value is needed here"], f"invoke it in an upper-level task, `tapa::task().invoke({word}, ..)`, and bring what it computes by a stream")
    return of_variable(case, name)


# ---- C6, C8, C9

def method(case: Case) -> Optional[Why]:
    """A method that streams have not."""
    row = found_row(case)
    if row:
        return row
    word = case.word()
    if word in METHODS:
        return Why([f"`{word}` is called with other arguments than it has"], f"write `{METHODS[word]}`", reason="each method of a stream has one form")
    name = scopes.visible(case.view, case.at).get(case.word(-2))
    able = {"istream": READS, "ostream": WRITES}.get(name.sort if name else "", (*READS, *WRITES))
    return Why([f"a stream has no method `{word}`"], f"call one of its methods: {listed((METHODS[it] for it in able), 'or')}", reason="a stream's methods wait for their token, so that a result does not depend on timing")


def conditional(case: Case) -> Why:
    """An operation that would be skipped."""
    view, at = case.view, case.at
    stream = view.text(at - 2) if view.text(at - 1) == "." else ""
    what = f"`{stream}.{case.word()}`" if stream else f"`{case.word()}[..]`"
    while at > 0 and view.text(at) not in ("&&", "||", "?", ";", "{", "}"):
        at = view.open.get(at, at) - 1
    sign = view.text(at) if view.text(at) in ("&&", "||", "?") else "?:"
    kind = "in an arm of `?:`" if sign in ("?", "?:") else f"right of `{sign}`"
    example = ["if (n > 0) { n = m[0]; } else { n = 0; }"] if "?" in sign else ["bool over = i.eot(nullptr);", "if (!over) { int next = i.peek(nullptr); if (next == n) { i.read(); } }"]
    return Why([f"{what} is {kind}, where C++ may skip it"], "write `if` with `else`" if "?" in sign else "do the operation before the expression, or in an `if` within an `if`", example)


def operand_end(view: View, at: int) -> int:
    """The lexeme after an operand of `/`: a number, a name with an index or a call, a conversion, or what is in parentheses."""
    while view.text(at) in ("-", "+", "~", "!"):
        at += 1
    if view.text(at) == "(":
        end = view.close.get(at, at) + 1
        return operand_end(view, end) if kinds.kind_at(view.words, at + 1) and (view.is_name(end) or view.kind(end) == "number" or view.text(end) == "(") else end
    at += 1
    while view.text(at) in (".", "::"):
        at += 2
    return view.close.get(at, at) + 1 if view.text(at) in ("[", "(") else at


def divisor(case: Case) -> Why:
    """A divisor that is no constant expression, or is 0."""
    view = case.view
    words = view.words[case.at + 1:operand_end(view, case.at + 1)]
    value = evaluated(words, view.source.values)
    if value and value[0] == 0:
        return Why([f"the divisor `{source.joined_words(words)}` is 0"], "write another constant", reason="a division by 0 has no value")
    names: Dict[str, Name] = scopes.visible(view, case.at)
    variable = next((names[it.text] for it in words if it.text in names and names[it.text].sort != "constant"), None)
    if variable and variable.is_const and variable.sort == "local":
        return Why([f"the divisor `{variable.name}` is a local `const`, and a divisor is a constant of the file"], "move it to the file, before the task", [f"const int {variable.name.upper()} = ..;"])
    sort = f", {DIVISORS.get(variable.sort, 'a variable')}" if variable else ""
    return Why([f"the divisor `{source.joined_words(words)}`{sort} is known only at run time"],
               "divide by a constant of the file, shift by a power of two, or subtract in a loop", ["int quotient = 0;", "while (n >= k) { n -= k; ++quotient; }"])
