"""Macros: a use becomes the words of the definition, also with parameters, `#` and `##`; a number becomes a constant of the file, so that its name stays."""
import re
from typing import Dict, FrozenSet, List, NamedTuple, Optional, Sequence, Tuple

from ..faults import Refused
from . import lexing
from .lexing import Word
from .mapped import Edit, Mapped

DEFINE = re.compile(r"^[ \t]*#[ \t]*(define|undef)[ \t]+([A-Za-z_]\w*)((?:\\\n|[^\n])*)\n?", re.M)
NUMBER = re.compile(r"(?:0[xX][0-9a-fA-F]+|0[bB][01]+|[0-9]+)(?:[uU]?[lL]{0,2}|[lL]{1,2}[uU])")
# What prints and checks: the whole statement goes.
PRINTS = re.compile(r"printf|fprintf|puts|assert|D?V?P?LOG(?:_IF|_FIRST_N|_EVERY_N)?|D?CHECK(?:_\w\w|_NOTNULL)?|HLS_PRAGMA|_Pragma")
MOST = 1 << 22


class Macro(NamedTuple):
    """A definition: its parameters, None without a parenthesis, whether the last takes the rest, and its words."""

    name: str
    parameters: Optional[List[str]]
    takes_rest: bool
    body: List[str]


LOOPS = ("TAPA_WHILE_NOT_EOT", "TAPA_WHILE_NEITHER_EOT", "TAPA_WHILE_NONE_EOT")


def spaced(pieces: List[str]) -> str:
    """Words with blanks where C++ or a reader needs them."""
    out = ""
    for it in pieces:
        is_tight = not out or out[-1] in "([.!~" or it in (")", "]", ",", ";", ".") or it in ("(", "[") and bool(re.match(r"[\w)\]]", out[-1]))
        out += it if is_tight and not (out and re.match(r"\w", out[-1]) and re.match(r"\w", it)) else " " + it
    return out


def defined(name: str, rest: str) -> Macro:
    """The macro of a `#define` line behind its name."""
    parameters: Optional[List[str]] = None
    if rest.startswith("("):
        inside, _, rest = rest[1:].partition(")")
        parameters = [it.strip() for it in inside.split(",") if it.strip()]
    takes_rest = bool(parameters) and parameters is not None and parameters[-1].endswith("...")
    if takes_rest and parameters is not None:
        parameters[-1] = parameters[-1][:-3].strip() or "__VA_ARGS__"
    return Macro(name, parameters, takes_rest, [it.text for it in lexing.words(rest.replace("\\\n", " "))])


class Expander:
    """The macros that are known at a place, and the words that a use becomes."""

    def __init__(self) -> None:
        self.known: Dict[str, Macro] = {it: Macro(it, ["a", "b", "c"], False, []) for it in LOOPS}
        self.size = 0

    def expanded(self, pieces: List[str], hidden: FrozenSet[str], at: int) -> List[str]:
        """Words with all macros put in; one within its own expansion stays."""
        out: List[str] = []
        index = 0
        while index < len(pieces):
            macro = self.known.get(pieces[index]) if pieces[index] not in hidden else None
            if macro is None or macro.parameters is not None and (index + 1 >= len(pieces) or pieces[index + 1] != "("):
                out.append(pieces[index])
                index += 1
                continue
            given: List[List[str]] = []
            index += 1
            if macro.parameters is not None:
                given, index = arguments(pieces, index, at)
            out += self.expanded(self.substituted(macro, given, hidden, at), hidden | {macro.name}, at)
        self.size += len(out)
        if self.size > MOST:
            raise Refused(at, "macros that become more than 4,000,000 words")
        return out

    def substituted(self, macro: Macro, given: List[List[str]], hidden: FrozenSet[str], at: int) -> List[str]:
        """A definition's words with the arguments in place of its parameters."""
        names = macro.parameters or []
        if macro.takes_rest and len(given) > len(names):
            rest = [it for part in given[len(names) - 1:] for it in [",", *part]][1:]
            given = [*given[:len(names) - 1], rest]
        if len(given) < len(names):
            given = given + [[]] * (len(names) - len(given))
        raw = dict(zip(names, given))
        out: List[str] = []
        body = macro.body
        for index, it in enumerate(body):
            before, after = body[index - 1] if index else "", body[index + 1] if index + 1 < len(body) else ""
            if it == "#" and after in raw and macro.parameters is not None:
                out.append('"' + " ".join(raw[after]).replace("\\", "\\\\").replace('"', '\\"') + '"')
            elif before == "#" and it in raw and macro.parameters is not None:
                continue
            elif it in raw and "##" not in (before, after):
                out += self.expanded(raw[it], hidden, at)
            else:
                out += raw.get(it, [it])
        return pasted(out, at)


def arguments(pieces: List[str], index: int, at: int) -> Tuple[List[List[str]], int]:
    """The arguments in the parenthesis that begins at a word, and the index after it."""
    depth, parts = 0, [[]]  # type: int, List[List[str]]
    for end in range(index, len(pieces)):
        it = pieces[end]
        depth += (it in ("(", "[", "{")) - (it in (")", "]", "}"))
        if depth == 0:
            return ([] if parts == [[]] else parts), end + 1
        if it == "," and depth == 1:
            parts.append([])
        elif end > index:
            parts[-1].append(it)
    raise Refused(at, "the parenthesis of a macro is open")


def pasted(pieces: List[str], at: int) -> List[str]:
    """Words with those that `##` joins as one."""
    out: List[str] = []
    index = 0
    while index < len(pieces):
        if pieces[index] == "##" and out and index + 1 < len(pieces):
            joined = out.pop() + pieces[index + 1]
            out += [it.text for it in lexing.words(joined)]
            index += 2
        else:
            out.append(pieces[index])
            index += 1
    return out


def is_constant(macro: Macro, text: str) -> bool:
    """A number that is defined once, and is no part of a directive."""
    if macro.parameters is not None or len(macro.body) != 1 or not NUMBER.fullmatch(macro.body[0]):
        return False
    return len(re.findall(rf"^[ \t]*#[ \t]*(?:define|undef)[ \t]+{macro.name}\b", text, re.M)) == 1


def use(expander: Expander, all_: List[Word], index: int, is_open: Dict[int, int]) -> Tuple[str, int]:
    """The text of the use of a macro that begins at a word, and the index of the word after it."""
    macro = expander.known[all_[index].text]
    end = index + 1
    if macro.parameters is not None:
        end = is_open.get(index + 1, len(all_) - 1) + 1
    if macro.name in LOOPS:
        given, _ = arguments([it.text for it in all_[index:end]], 1, all_[index].begin)
        streams = [spaced(expander.expanded(it, frozenset(), all_[index].begin)) for it in given]
        tests = [f"!{it if re.fullmatch(r'[A-Za-z_0-9]+', it) else f'({it})'}.eot(nullptr)" for it in streams]
        return f"while (/*{macro.name}*/{' && '.join(tests)})", end
    return spaced(expander.expanded([it.text for it in all_[index:end]], frozenset(), all_[index].begin)), end


def code_of(text: str, lines: "Sequence[re.Match[str]]") -> str:
    """A text of the same length without definitions and other directives."""
    blank = list(text)
    for line in lines:
        blank[line.start():line.end()] = [" "] * (line.end() - line.start())
    for line in re.finditer(r"^[ \t]*#(?:\\\n|[^\n])*", "".join(blank), re.M):
        blank[line.start():line.end()] = [" "] * (line.end() - line.start())
    return "".join(blank)


def expanded(source: Mapped) -> Mapped:
    """The text without macros: definitions go, uses become what they stand for, and statements that print or check go."""
    text = source.text
    expander, edits = Expander(), []  # type: Expander, List[Edit]
    pending = list(DEFINE.finditer(text))
    words = lexing.Words(code_of(text, pending))
    index = 0
    while index < len(words.all):
        it = words.all[index]
        while pending and pending[0].start() < it.begin:
            edits += definition(expander, pending.pop(0), text)
        is_called = index + 1 < len(words.all) and words.all[index + 1].text == "("
        is_member = index > 0 and words.all[index - 1].text in (".", "->", "::")
        macro = expander.known.get(it.text)
        if macro is None and is_called and not is_member and PRINTS.fullmatch(it.text):
            edits.append(without(text, words, index))
            index = words.after(edits[-1].end)
        elif macro is not None and (macro.parameters is None or is_called):
            made, end = use(expander, words.all, index, words.closing)
            edits.append(Edit(it.begin, words.all[end - 1].end, made))
            index = end
        else:
            index += 1
    for line in pending:
        edits += definition(expander, line, text)
    return source.applied(edits)


def without(text: str, words: lexing.Words, index: int) -> Edit:
    """A statement that prints or checks goes, with its line where it is alone there; as the only one under an `if` it leaves a `;`."""
    it = words.all[index]
    if it.text == "_Pragma":
        return Edit(it.begin, words.all[words.closing.get(index + 1, index)].end, "")
    end = words.statement_end(it.begin)
    if index and words.all[index - 1].text not in ("{", "}", ";"):
        return Edit(it.begin, end, ";")
    line, behind = text.rfind("\n", 0, it.begin) + 1, text.find("\n", end)
    is_alone = behind >= 0 and not text[line:it.begin].strip() and not text[end:behind].strip()
    return Edit(line, behind + 1, "") if is_alone else Edit(it.begin, end, "")


def definition(expander: Expander, line: "re.Match[str]", text: str) -> List[Edit]:
    """What becomes of a `#define` or `#undef` line."""
    if line[1] == "undef":
        expander.known.pop(line[2], None)
        return [Edit(line.start(), line.end(), "")]
    macro = defined(line[2], line[3])
    if is_constant(macro, text):
        comment = next((it.text for it in lexing.every(line[3]) if it.kind == "comment"), "")
        return [Edit(line.start(), line.end(), f"constexpr auto {macro.name} = {macro.body[0]};{' ' * bool(comment)}{comment}\n")]
    expander.known[macro.name] = macro
    return [Edit(line.start(), line.end(), "")]
