"""Statements as lines. What no pass touched keeps its lines; comments stay before what they were written before."""
import re
from typing import List, Optional

from ..tree.kinds import Array, Carrier, Kind
from ..tree.nodes import Name, Number, Operation, Unary
from ..tree.program import Variable
from ..tree.statements import Block, Break, Chain, Continue, Declare, Empty, Evaluate, For, If, Invoke, Local, Marked, Return, Statement, While
from .expressions import shown

WIDTH = 160


def word(kind: Kind) -> str:
    """A kind as it is written in a declaration."""
    if isinstance(kind, Carrier):
        return carrier(kind)
    while isinstance(kind, Array):
        kind = kind.element
    return str(kind)


def carrier(kind: Carrier) -> str:
    element = ("const " if kind.is_const else "") + word(kind.element)
    if kind.sort == "stream":
        return f"tapa::stream<{element}{f', {kind.depth}' if kind.depth != 2 else ''}>"
    if kind.sort == "streams":
        return f"tapa::streams<{element}, {kind.length}{f', {kind.depth}' if kind.depth != 2 else ''}>"
    return f"tapa::{kind.sort}<{element}>"


def head(it: Variable) -> str:
    """A parameter."""
    if isinstance(it.kind, Carrier):
        return f"{carrier(it.kind)}{'&' if it.kind.sort in ('istream', 'ostream') else ''} {it.name}"
    return f"{'const ' if it.is_const else ''}{word(it.kind)} {it.name}"


class Lines:
    """The lines of statements; `unit` is what one level is indented by."""

    def __init__(self, unit: str = "  ") -> None:
        self.unit = unit

    def shifted(self, text: str, old: str, new: str) -> List[str]:
        """A text with the margin of its lines changed."""
        out: List[str] = []
        for number, line in enumerate(text.split("\n")):
            if line.lstrip().startswith("#"):
                out.append(line.rstrip())
            elif number and line.startswith(old):
                out.append((new + line[len(old):]).rstrip())
            else:
                out.append((new + line.lstrip() if number else new + line).rstrip())
        return out

    def comments(self, it: Statement, margin: str) -> List[str]:
        out: List[str] = []
        for text in it.before:
            out += [""] if not text else [text] if text.lstrip().startswith("#") else self.shifted(text, it.margin, margin)
        return out

    def statement(self, it: Statement, margin: str) -> List[str]:
        """The lines of a statement with what is before it and on its line."""
        front = self.comments(it, margin)
        if it.text is not None:
            lines = self.shifted(f"{it.attribute}{' ' * bool(it.attribute)}{it.text}", it.margin, margin)
        else:
            lines = self.made(it, margin)
            if it.attribute and lines:
                lines[0] = f"{margin}{it.attribute} {lines[0][len(margin):]}"
        if it.after and lines:
            lines[-1] += f"  {it.after}" if not it.after.startswith("//") else f"  {it.after}"
        return [*front, *lines]

    def parts(self, it: Block, margin: str) -> List[str]:
        """The lines within a block."""
        out: List[str] = []
        for each in it.parts:
            lines = self.statement(each, margin)
            out += lines[1:] if not out and lines[:1] == [""] else lines
        for text in it.end:
            out += [text] if text.lstrip().startswith("#") else self.shifted(text, margin, margin) if text else []
        return out

    def made(self, it: Statement, margin: str) -> List[str]:
        inner = margin + self.unit
        if isinstance(it, Block):
            return [f"{margin}{{", *self.parts(it, inner), f"{margin}}}"] if it.parts or it.end else []
        if isinstance(it, Declare):
            return [f"{margin}{self.declaration(it)};"]
        if isinstance(it, Evaluate):
            return [f"{margin}{shown(it.expression)};"]
        if isinstance(it, If):
            return self.if_(it, margin)
        if isinstance(it, While):
            return self.block(f"{margin}{self.head_of_while(it)}", it.body, margin)
        if isinstance(it, For):
            return self.block(f"{margin}for ({self.start(it.start)}; {shown(it.test) if it.test is not None else ''}; {shown(it.step) if it.step is not None else ''})".replace("; )", ";)").replace(";  ;", ";;").replace("(; ;", "(;;"), it.body, margin)
        if isinstance(it, Chain):
            return self.chain(it, margin)
        if isinstance(it, Marked):
            return [f"{margin}// port: line {it.line}: {it.why}", *(self.shifted("\n".join(it.lines), it.margin, margin))]
        table = {Break: "break;", Continue: "continue;", Empty: "", Return: "return;"}
        text = table.get(type(it), "")
        return [f"{margin}{text}"] if text else []

    def head_of_while(self, it: While) -> str:
        """`TAPA_WHILE_NOT_EOT` where it was written so, and the stream is a name."""
        test = it.test
        if it.macro == "TAPA_WHILE_NOT_EOT" and isinstance(test, Unary) and isinstance(test.operand, Operation) and test.operand.method == "eot" and isinstance(test.operand.stream, Name):
            return f"TAPA_WHILE_NOT_EOT({shown(test.operand.stream)})"
        return f"while ({shown(test, 0, True)})"

    def block(self, front: str, body: Block, margin: str) -> List[str]:
        lines = self.parts(body, margin + self.unit)
        if not lines and not body.parts:
            return [f"{front} {{}}"] if not front.lstrip().startswith("else") else [f"{front} {{}}"]
        one = lines[0].strip() if len(lines) == 1 else ""
        if one and len(body.parts) == 1 and isinstance(body.parts[0], (Evaluate, Break, Continue)) and "//" not in one and len(front) + len(one) < 110:
            return [f"{front} {{ {one} }}"]
        return [f"{front} {{", *lines, f"{margin}}}"]

    def if_(self, it: If, margin: str) -> List[str]:
        out = self.block(f"{margin}if ({shown(it.test, 0, True)})", it.then, margin)
        other = it.other
        while other is not None and (other.parts or other.end):
            again = other.parts[0] if len(other.parts) == 1 and isinstance(other.parts[0], If) and not other.parts[0].before and not other.end else None
            front = f"if ({shown(again.test, 0, True)})" if isinstance(again, If) else ""
            body = again.then if isinstance(again, If) else other
            last = out.pop() if out[-1].strip() == "}" else None
            if last is None and len(out) == 1 and out[0].endswith("}"):
                last = out.pop()
            lines = self.block(f"{last if last is not None else margin} else{' ' * bool(front)}{front}", body, margin)
            out += lines
            other = again.other if isinstance(again, If) else None
        return out

    def start(self, it: Optional[Statement]) -> str:
        if isinstance(it, Declare):
            return self.declaration(it)
        return shown(it.expression) if isinstance(it, Evaluate) else ""

    def declaration(self, it: Declare) -> str:
        first = it.locals[0].variable
        front = f"{'const ' if first.is_const and not isinstance(first.kind, (Array, Carrier)) else ''}{word(first.kind)} "
        return front + ", ".join(self.local(each) for each in it.locals)

    def local(self, it: Local) -> str:
        variable = it.variable
        if isinstance(variable.kind, Array):
            return f"{variable.name}[{variable.kind.length}]"
        if isinstance(variable.kind, Carrier):
            return f'{variable.name}("{variable.name}")'
        return variable.name + (f" = {shown(it.first)}" if it.first is not None else "")

    # chains

    def chain(self, it: Chain, margin: str) -> List[str]:
        out = [f"{margin}tapa::task()"]
        for each in it.invokes:
            out += self.invoke(each, margin + 2 * self.unit)
        out[-1] += ";"
        return out

    def invoke(self, it: Invoke, margin: str) -> List[str]:
        mode = "<tapa::detach>" if it.is_detached else ""
        given = [shown(each) if not isinstance(each, Number) or each.text is not None else shown(each) for each in it.arguments]
        line = f"{margin}.invoke{mode}({', '.join([it.function.name, *given])})"
        if len(line) <= WIDTH:
            return [line]
        out, now = [], f"{margin}.invoke{mode}({it.function.name},"
        for number, text in enumerate(given):
            sign = ")" if number == len(given) - 1 else ","
            if len(now) + len(text) + 2 > WIDTH:
                out.append(now)
                now = f"{margin}        {text}{sign}"
            else:
                now += f" {text}{sign}"
        return [*out, now]


def unit_of(text: str) -> str:
    """What one level is indented by in a source."""
    found = re.search(r"\{[^\n]*\n([ \t]+)\S", text)
    if not found:
        return "  "
    return "\t" if found[1].startswith("\t") else found[1][:4] if len(found[1]) >= 4 and len(found[1]) % 4 == 0 else "  "
