"""The ported source: the items of the file in their order, with the comments and blank lines between them."""
import re
from typing import List, Tuple


from ..tree.kinds import Whole
from ..tree.nodes import Number
from ..tree.program import Function, Item, Program, Variable
from .expressions import shown
from .statements import WIDTH, Lines, head, unit_of

CONSTANT = re.compile(r"(?:const|constexpr)\s+(?P<type>[\w\s:]+?)\s+(?P<name>[A-Za-z_]\w*)\s*=\s*(?P<value>[^;]*);")
LITERALS = re.compile(r"[\s()+\-*&|^~<>]*(?:(?:0[xX][0-9a-fA-F]+|[0-9]+)[uUlL]*[\s()+\-*&|^~<>]*)+")


def function_text(it: Function, lines: Lines) -> str:
    """A task."""
    assert it.body is not None
    if it.text is not None:
        front = it.text.rstrip()
    else:
        front = f"void {it.name}({', '.join(head(each) for each in it.parameters)})"
        if len(front) > WIDTH:
            front = broken(it)
    if it.body.text is not None:
        return "\n".join(lines.shifted(f"{front} {it.body.text}", it.body.margin, ""))
    inner = lines.parts(it.body, lines.unit)
    return "\n".join([f"{front} {{", *inner, "}"]) if inner else f"{front} {{}}"


def broken(it: Function) -> str:
    """The head of a task over several lines."""
    out, now = [], f"void {it.name}("
    for number, each in enumerate(it.parameters):
        text = head(each) + ("," if number < len(it.parameters) - 1 else ")")
        if len(now) + len(text) > WIDTH:
            out.append(now.rstrip())
            now = " " * (len(it.name) + 6)
        now += text + " "
    return "\n".join([*out, now.rstrip()])


def constant_text(it: Variable, written: str) -> str:
    """A constant of the file, by its expression where that is of the language, and else by its value."""
    found = CONSTANT.fullmatch(written)
    from ..read.kinds import is_word
    if found and is_word(found["type"]) and found["name"] == it.name and (LITERALS.fullmatch(found["value"]) or it.first is not None and it.first.text is not None):
        return written
    kind = it.kind if isinstance(it.kind, Whole) else Whole(32, True)
    value = shown(it.first) if it.first is not None and it.first.text is not None else shown(Number(kind, it.value or 0))
    return f"const {kind} {it.name} = {value};"


class Pages:
    """The text of a program."""

    def __init__(self, program: Program) -> None:
        self.program = program
        self.lines = Lines(unit_of(program.source.text))

    def item(self, it: Item) -> str:
        """What an item becomes."""
        text = self.program.source.text[it.begin:it.end]
        out: List[str] = []
        for each in it.constants:
            out.append(constant_text(each, text if len(it.constants) == 1 and not it.functions else ""))
        out += [function_text(each, self.lines) for each in it.functions]
        return ("\n\n" if it.functions else "\n").join(out)

    def gap(self, text: str, is_before_gone: bool, is_behind_gone: bool) -> str:
        """The text between two items, without the comments of one that goes."""
        if is_behind_gone:
            text = re.sub(r"\A[ \t]*(?:;[ \t]*)?(?://[^\n]*|/\*(?:(?!\*/).)*\*/)?", "", text, flags=re.S)
        text = re.sub(r"^[ \t]*;[ \t]*$", "", text, flags=re.M)
        if is_before_gone:
            text = re.sub(r"(?:(?:^[ \t]*//[^\n]*\n)+|^[ \t]*/\*(?:(?!\*/).)*\*/[ \t]*\n)[ \t]*\Z", "", text, flags=re.S | re.M)
            text = re.sub(r"\[\[(?:(?!\]\]).)*\]\][ \t\n]*\Z", "", text, flags=re.S)
        return text

    def ordered(self) -> List[Tuple[Item, str]]:
        """The items with their texts; a task comes before those that invoke it."""
        items = list(self.program.items)
        place = {id(task): at for at, task in enumerate(self.program.tasks)}
        del place
        return [(it, "" if it.is_brace else self.item(it)) for it in items]

    def text(self) -> str:
        source = self.program.source.text
        out: List[str] = []
        at = 0
        is_gone = False
        for it, text in self.ordered():
            if it.begin < at:
                continue
            out.append(self.gap(source[at:it.begin], not text and not it.is_brace, is_gone))
            out.append(text)
            at, is_gone = it.end, not text and not it.is_brace
        out.append(self.gap(source[at:], False, is_gone))
        made = "".join(out)
        made = re.sub(r"[ \t]+$", "", made, flags=re.M)
        made = re.sub(r"\n{3,}", "\n\n", made).strip("\n") + "\n"
        return made if re.search(r"^[ \t]*#[ \t]*include\b", made, re.M) else "#include <tapa.h>\n\n" + made


def written(program: Program) -> str:
    return Pages(program).text()
