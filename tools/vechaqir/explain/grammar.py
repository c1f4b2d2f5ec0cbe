"""Why lexemes, stream arrays and the grammar refuse a source: the codes L1 to L4, A1 to A4, P1 and P2."""
import re
from typing import List, Optional

from ..language import kinds, lexemes, patterns
from ..language.matching import matches
from . import pages, reasons
from .base import Case, Why, counted, listed
from .own import own_word, refused

FROM_TAPA = "docs/FROM_TAPA.md"
ENDS = ("number", "name", "text")
PAIRS = "brackets come in pairs, and the first that is left open ends at the end of the file"
WHOLE = "a statement is read as a whole, up to its end"
QUALIFIED = "the words of TAPA are in the namespace `tapa`"
# Constructs whose accepted text in docs/FROM_TAPA.md shows nothing that takes their place.
WITHOUT_EXAMPLE = ("`main`", "a name for a type")
TYPES = ("istream", "ostream", "stream", "streams", "mmap")


def of_row(construct: str, before: Optional[List[str]] = None, word: str = "") -> Why:
    """What the row of a construct says; `word` is what the source itself calls it."""
    row = pages.rows().get(construct)
    what = refused(construct, word)
    reason = reasons.of("", construct)
    if row is None:
        return Why([what, *(before or [])], reason=reason)
    return Why([what, *(before or [])], f"write {row.first}", [] if construct in WITHOUT_EXAMPLE else [row.accepted], f'{FROM_TAPA}, "{row.section}"', reason)


def found_row(case: Case) -> Optional[Why]:
    """The row of the construct whose pattern stands at the place."""
    pattern = patterns.found(case.view, case.at, case.code)
    if pattern is None:
        return None
    why = of_row(pattern.construct, named(case, pattern.construct), own_word(case, pattern.construct))
    return by_reference(case, why) if pattern.construct == "a stream parameter without `&`" else why


def by_reference(case: Case, why: Why) -> Why:
    """The stream parameter at the place with its `&`, in the reader's words."""
    view, at = case.view, case.at
    first = next((it for it in range(at, max(at - 12, 0), -1) if view.text(it) == "tapa"), None)
    if first is None or not view.is_name(at):
        return why
    kind = view.source.text[view.words[first].begin:view.words[at - 1].end].decode("utf-8", "replace")
    return why._replace(instead=f"write `{kind}& {view.text(at)}`", example=[])


def named(case: Case, construct: str) -> List[str]:
    """What the source itself says of a construct."""
    view, at = case.view, case.at
    if construct in ("a type by another name", "a field"):
        word = next((view.text(it) for it in (at - 1, at) if view.text(it) in view.structs | view.aliases), "")
        return [f"`{word}` is a {'struct' if word in view.structs else 'name'} that this source declares"] * bool(word)
    if construct == "a function":
        item = next((it for it in view.items if it.begin <= at < it.end), None)
        return [f"a task begins with `void`, and this begins with `{view.text(at)}`"] if item and item.name else []
    if construct == "a function that is called":
        item = next((it for it in view.items if it.name == view.text(at - 1) and it.kind in ("function", "template", "task")), None)
        return [f"`{view.text(at - 1)}` is declared in line {case.line(item.begin)}"] if item else []
    return []


def directive(case: Case) -> Why:
    """A `#` line that is no `#include` and no `#pragma`."""
    line = case.view.source.lines.line(case.place.line).decode("utf-8", "replace").strip()
    define = re.match(r"#\s*define\s+(\w+)(\()?\s*(.*)", line)
    if not define:
        word = re.match(r"#\s*\w*", line)
        return of_row("another directive", word=word[0] if word else "")
    if define[2]:
        return of_row("a `#define` with parameters", word=define[1])
    why = of_row("a `#define` of a number", word=define[1])
    value = re.sub(r"//.*|/\*.*?\*/", "", define[3]).strip()
    return why._replace(example=[f"const int {define[1]} = {value};"]) if value and "\\" not in value else why


def byte(case: Case) -> Why:
    """A byte that begins nothing of the language."""
    text, offset = case.view.source.text, case.view.source.lines.offset(case.place)
    found = text[offset:offset + 1]
    if found == b"#":
        return Why(["this `#` is after other text of its line"], "put `#include` and `#pragma` on lines of their own", reason="a `#` line is skipped as a whole")
    if found and found[0] >= 0x80:
        shown = text[offset:offset + 4].decode("utf-8", "ignore")[:1]
        return Why([f"{repr(shown) if shown else f'the byte {found[0]}'} is not ASCII; editors and web pages write such signs for quotes, dashes and blanks"], "type the ASCII sign")
    shown = found.decode("latin-1")
    return Why([f"`{shown}` begins no word of the language"], "write names of letters, digits and `_`, and the signs of C++")


def opened(case: Case) -> Why:
    """A comment or a string without an end."""
    text = case.view.source.text[case.view.source.lines.offset(case.place):]
    if text.startswith(b"/*"):
        return Why(["this comment has no end"], "write `*/` after it")
    line = text.split(b"\n")[0]
    reason = "a string is the name of a stream or a word of an attribute"
    if b"\\" in line:
        return Why(["a string has a `\\` in it"], "write plain characters", reason=reason)
    if not line.isascii():
        return Why(["a string has a character in it that is not ASCII"], "write plain characters", reason=reason)
    return Why(["this string has no end on its line"], 'write a `"` after it')


def number(case: Case) -> Why:
    word = case.word()
    if re.fullmatch(r"0[0-9]+", word):
        return Why([f"`{word}` begins with 0, so it is octal, which has the digits 0 to 7"], f"write `{word.lstrip('0') or '0'}`", reason="C++ reads a leading 0 so")
    if re.fullmatch(r"([0-9]+|0[xX][0-9a-fA-F]+|0[bB][01]+)([uU]?(l|L|ll|LL)?|(l|L|ll|LL)[uU])", word):
        return Why([f"no type of 64 bits holds `{word}` as it is written"], "write a number below 2^64, with `u` after it from 2^63 on")
    return Why([f"`{word}` is not an integer of C++"], "write decimal digits, `0x..` or `0b..`, with a suffix `u`, `l`, `ll`, `ul`, `ull` or none")


def bad_count(case: Case) -> Why:
    word, view = case.word(), case.view
    bounds = "an array has 1 to 512 elements, and an invoke is made 1 to 512 times"
    if view.kind(case.at) == "number":
        if re.search("[^0-9]", word) or word[0] == "0" and word != "0":
            return Why([f"`{word}` is not a plain decimal number"], "write decimal digits without a suffix")
        return Why([f"{word} is out of range: {bounds}"], "write a number in this range")
    if word in view.source.counts:
        return Why([f"the constant `{word}` is {view.source.counts[word]}: {bounds}"], "give it a value in this range")
    if word in view.source.values:
        value = view.source.values[word][0]
        row = of_row("a computed count")
        return row._replace(says=[f"the constant `{word}` is computed, and a count is a number or a constant that is one number"], example=[f"const int {word} = {value};"])
    task = view.task(case.at)
    if task and task.parameter(word):
        return Why([f"`{word}` is a parameter, whose value is known only at run time"], "write a number, or a constant of the file that is one")
    return Why([f"`{word}` is not a constant of the file that is declared before it"], "write a number, or a constant of the file", ["const int N = 4;"])


def array_of(case: Case) -> Optional[int]:
    """How many elements the array at the place has."""
    task = case.view.task(case.at)
    return next((it.count for it in (task.streams if task else []) if it.name == case.word()), None)


def arrays_of(case: Case) -> List[str]:
    """The names of the task's arrays."""
    task = case.view.task(case.at)
    return [it.name for it in (task.streams if task else []) if it.is_array]


def other_length(case: Case) -> Why:
    length, view = array_of(case), case.view
    count = view.text((view.enclosing(case.at) or 0) - 2)
    number = view.source.counts.get(count, count)
    row = of_row("a counted invoke of a longer array")
    says = [f"`{case.word()}` has {counted(length or 0, 'element')}, and this invoke makes {number} instances"]
    return row._replace(says=says, instead=f"write an invoke for each instance, with the element that it gets: `{case.word()}[0]`, `{case.word()}[1]` and so on", reason=reasons.of("A2"))


def out_of_place(case: Case) -> Why:
    length, name, view = array_of(case), case.word(), case.view
    if case.word(1) == "[":
        return bad_index(case, name, length or 0)
    opening = view.enclosing(case.at)
    behind = view.text(opening - 1) if opening else ""
    if behind == ">" and matches(view, "invoke < tapa :: NAME , ANY OPERATOR ... @(", opening or 0):
        return Why(["the count of this invoke is an expression"], "write the number itself, or a constant of the file that is one", reason=reasons.of("A1"))
    called = view.source.tasks.get(view.text(opening + 1)) if opening else None
    front = f"`{name}` is an array of {counted(length or 0, 'stream')}"
    if called and any(it.direction in ("istreams", "ostreams") for it in called.parameters):
        return of_row("a parameter of streams")._replace(says=[f"{front}, and `{called.name}` has a parameter of streams, which is not in the language"], reason=reasons.of("A3"))
    if behind in ("invoke", ">"):
        instead = f"write an element, `{name}[0]`, or a counted invoke with as many instances as elements: `invoke<tapa::join, {length}>(..)`"
        return of_row("an array of streams as one argument")._replace(says=[f"{front}, and this invoke makes one instance of one task"], instead=instead, reason=reasons.of("A3"))
    return Why([f"the array `{name}` is declared twice in this task, or is used where a stream is needed"], "give it another name, or write an element: `{name}[0]`".replace("{name}", name))


def bad_index(case: Case, name: str, length: int) -> Why:
    """An index of an array of streams that is none of its elements."""
    index = case.word(2)
    value = lexemes.decimal(index) if index.isdecimal() else case.view.source.counts.get(index)
    if index in arrays_of(case):
        return Why([f"`{index}` is an array in this task, and hides the constant of this name"], "give the constant another name")
    if case.word(3) != "]" or value is None:
        return Why([f"the index of `{name}` is computed"], "write a number, or a constant of the file that is one", reason=reasons.of("A1"))
    return Why([f"`{name}` has {counted(length, 'element')}: `{name}[0]` to `{name}[{max(length, 1) - 1}]`"], "write an index below the number of elements")


def missing(case: Case) -> Optional[Why]:
    """A `;` or a bracket that is missing before the place."""
    view, at = case.view, case.at
    if at >= len(view.words):
        unclosed = [it for it in range(len(view.words)) if view.text(it) in ("(", "[", "{") and it not in view.close]
        if unclosed:
            text = view.text(unclosed[0])
            return Why([f"the file ends, and the `{text}` of line {case.line(unclosed[0])} is not closed"], f"write `{lexemes.OPENING[text]}` where it ends", reason=PAIRS)
        return Why(["the file ends in the middle of a declaration"], "write its end", reason=WHOLE)
    if view.text(at) == "void" and view.regions[at] in ("leaf", "upper"):
        task = view.task(at)
        return Why([f"a task begins here, and the body of `{task.name if task else ''}` is not closed"], "write `}` before this line", reason=PAIRS)
    if view.kind(at) == "text":
        return Why(["a string is here, and strings are names of streams and words of attributes"], "write a number or a name", reason="values are integers")
    ends = view.kind(at - 1) in ENDS or view.text(at - 1) in (")", "]", "++", "--")
    behind = case.line(at - 1) if at > 0 else 0
    begins = view.text(at) == "}" or view.kind(at) == "name" and (case.line(at) > behind or kinds.kind_at(view.words, at) is not None)
    if ends and begins and view.regions[at] != "file":
        return Why([f"a `;` is missing after `{view.text(at - 1)}` in line {behind}"], "write `;` there", reason=WHOLE)
    if ends and (view.is_name(at) or view.kind(at) == "number"):
        return Why([f"between `{view.text(at - 1)}` and `{view.text(at)}` an operator or a `;` is missing"], "write one of the two", reason=WHOLE)
    return None


def unqualified(case: Case) -> Optional[Why]:
    """A word of TAPA without `tapa::` before it, or another word after `tapa::`."""
    view, at = case.view, case.at
    word = next((it for it in (at, at - 1) if view.text(it) in TYPES and view.text(it - 1) != "::" and view.text(it + 1) == "<"), None)
    if word is None and matches(view, "@task (", at) and view.text(at - 1) in (";", "{"):
        word = at
    if word is not None:
        return Why([f"`{view.text(word)}` is written without `tapa::`"], f"write `tapa::{view.text(word)}`; `{pages.porting()}` does so in the whole source", reason=QUALIFIED)
    is_other = case.word(-1) == "::" and case.word(-2) == "tapa" and view.is_name(at) and case.word() not in (*TYPES, "task", "join", "detach")
    if is_other and patterns.found(view, at, case.code) is None:
        may = ("join", "detach") if view.text(at - 3) in ("<", ",") and view.text(at - 4) == "invoke" else (*TYPES, "task")
        return Why([f"`tapa::{case.word()}` is not declared"], f"write one of the words after `tapa::` here: {listed(may, 'or')}", reason=QUALIFIED)
    return None


def unexpected(case: Case) -> Why:
    """Another token than the grammar continues with."""
    word, before = case.word(), case.word(-1)
    if (before, word) == ("if", "constexpr"):
        return Why(["`if constexpr` is not in the language"], f"write `if` without `constexpr`; `{pages.porting()}` keeps the branch that each instance of a template takes", reason="it chooses in a template, and the language has none")
    if before in ("if", "while", "for") and word != "(":
        return Why([f"after `{before}` its condition is missing, which is in parentheses"], "write parentheses around it", reason=WHOLE)
    why = unqualified(case) or found_row(case) or missing(case)
    if why:
        return why
    if word == "else":
        return Why(["this `else` belongs to no `if`: the statement before it has ended"], "put braces around what is between `if` and `else`", reason="an `else` follows the one statement of its `if`")
    if word in (")", "]", "}") and case.at not in case.view.open:
        return Why([f"this `{word}` closes nothing"], "write brackets in pairs", reason=PAIRS)
    return Why([f"`{word}` cannot follow `{before}` here" if before else f"a source cannot begin with `{word}`"],
               f"look before this place for a missing bracket or `;`, or write a form of docs/LANGUAGE.md, \"Grammar\"; `{pages.porting()}` rewrites a TAPA source")


def nested(_: Case) -> Why:
    return Why(["more than 64 constructs are open here, or one expression has more than 1,000 operators"],
               "write a list of `if`s for a long `else if` chain, and several statements for one expression", pages.way_round("P2"))


def too_long(_: Case) -> Why:
    return Why(["with its arrays expanded the source has more than 4,194,304 bytes"], "shorten the names and arguments in counted invokes, or declare fewer elements")


CAUSES = {"L2": opened, "L4": directive, "A1": bad_count, "A2": other_length, "A3": out_of_place, "A4": too_long, "P1": unexpected, "P2": nested}


def why(case: Case) -> Optional[Why]:
    """Why a source is refused with one of these codes."""
    if case.code == "L1":
        return found_row(case) or byte(case)
    if case.code == "L3":
        return found_row(case) or number(case)
    return CAUSES[case.code](case) if case.code in CAUSES else None
