"""Statements, with the comments around them."""
import re
from typing import Any, Callable, Dict, List, Optional, Tuple

from ..source.clang import kids, span, value
from ..tree.kinds import VOID, Carrier, Plain
from ..tree.nodes import Braces, Node, Unknown

from ..tree.statements import Block, Break, Continue, Declare, Do, Empty, Evaluate, For, ForEach, Group, If, Return, Statement, Switch, While
from ..tree.walking import children
from .invokes import Invokes


ATTRIBUTE = re.compile(r"\[\[.*?\]\]", re.S)
KEPT_ATTRIBUTE = re.compile(r"\[\[\s*tapa\s*::\s*[A-Za-z_]\w*(?:\((?:\s*(?:[0-9]\w*|[A-Za-z_]\w*|\"[^\"]*\")\s*,?)*\))?\s*\]\]")
GAP = re.compile(r"//[^\n]*|/\*.*?\*/|^[ \t]*#[ \t]*(?:pragma|include)\b[^\n]*|\[\[.*?\]\]|\n", re.S | re.M)
MACRO = re.compile(r"while \(/\*(\w+)\*/")


class Statements(Invokes):
    """Reads statements."""

    def end(self, cursor: Any) -> int:
        """The offset after a statement."""
        words = self.words(cursor)
        begin, last = span(cursor)
        name = cursor.kind.name
        if name == "COMPOUND_STMT":
            at = words.after(begin)
            return words.all[words.closing[at]].end if at in words.closing else last
        if name in ("IF_STMT", "WHILE_STMT", "FOR_STMT", "CXX_FOR_RANGE_STMT", "SWITCH_STMT", "CASE_STMT", "DEFAULT_STMT", "LABEL_STMT"):
            inner = [it for it in kids(cursor) if it.kind.name != "NULL_STMT" or words.text[span(it)[0]:span(it)[0] + 1] == ";"]
            return max([last, *(self.end(it) for it in inner[-1:])])
        if name == "DECL_STMT" or name == "NULL_STMT":
            return last
        return words.statement_end(begin)

    def block(self, cursor: Any) -> Block:
        """The statements in braces, or a single one."""
        if cursor.kind.name != "COMPOUND_STMT":
            part = self.statement(cursor)
            made = Block(tuple(part), (), False)
            self.keep_statement(made, cursor)
            made.at, made.margin = self.at(cursor), self.margin(cursor)
            return made
        parts: List[Statement] = []
        inner = kids(cursor)
        begin, end = span(cursor)[0] + 1, self.end(cursor) - 1
        at = begin
        for it in inner:
            if it.kind.name == "NULL_STMT" and span(it)[0] < at:
                continue
            found = self.statement(it)
            last = self.end(it)
            if found:
                self.dress(found, self.words(cursor).text[at:span(it)[0]], parts)
            parts += found
            at = max(at, last)
        made = Block(tuple(parts))
        if self.is_own(cursor):
            made.end = self.gap(self.words(cursor).text[at:end], parts)
        if not any(it.kind == self.sort.LABEL_STMT for it in inner):
            self.keep_statement(made, cursor)
        made.at, made.margin = self.at(cursor), self.margin(cursor)
        return made

    def margin(self, cursor: Any) -> str:
        """The blanks before the first word of the line on which a statement begins."""
        begin = span(cursor)[0]
        text = self.words(cursor).text
        line = text[text.rfind("\n", 0, begin) + 1:begin]
        return line[:len(line) - len(line.lstrip())]

    def gap(self, text: str, before: List[Statement]) -> Tuple[str, ...]:
        """The lines of comments between two statements; one on the line of the first is its own."""
        out: List[str] = []
        is_same_line = bool(before)
        empty = 0
        for it in GAP.finditer(text):
            if it[0] == "\n":
                empty += not is_same_line
                is_same_line = False
            elif it[0].startswith("[["):
                continue
            elif is_same_line and it[0].startswith("/"):
                before[-1].after = it[0]
            else:
                out += [""] * (empty > 1) + [it[0].strip()]
                empty = 0
        return tuple([*out, *([""] if empty > 1 else [])])

    def dress(self, parts: List[Statement], text: str, before: List[Statement]) -> None:
        """Gives a statement the comments, pragmas and attributes before it."""
        parts[0].before = self.gap(text, before)
        attributes = [it[0] for it in ATTRIBUTE.finditer(text)]
        parts[0].attribute = " ".join(it for it in attributes if KEPT_ATTRIBUTE.fullmatch(it))
        if len(parts) == 1 and attributes and not all(KEPT_ATTRIBUTE.fullmatch(it) for it in attributes):
            parts[0].attribute = ""

    def keep_statement(self, node: Node, cursor: Any) -> None:
        """Keeps the text of a statement whose parts all have theirs, with what is between them."""
        if not self.is_own(cursor) or not all(it.text is not None for it in children(node)):
            return
        text = self.words(cursor).text[span(cursor)[0]:self.end(cursor)]
        if "/*TAPA_WHILE" in text:
            text = re.sub(r"while \(/\*(TAPA_WHILE_NOT_EOT)\*/!([A-Za-z_]\w*)\.eot\(nullptr\)\)", r"\1(\2)", text)
            if "/*TAPA_WHILE" in text:
                return
        if isinstance(node, Block) and any(it.attribute == "" for it, found in self.attributed(node, text) if found):
            return
        node.text = re.sub(r"[ \t]+\n", "\n", text)

    def attributed(self, node: Block, text: str) -> List[Tuple[Statement, bool]]:
        has_one = any(not KEPT_ATTRIBUTE.fullmatch(it[0]) for it in ATTRIBUTE.finditer(text))
        return [(it, has_one) for it in node.parts]

    def statement(self, cursor: Any) -> List[Statement]:
        """The statements that a cursor becomes: one in most cases."""
        reader = self.statement_readers().get(cursor.kind.name)
        if reader is not None:
            made = reader(cursor)
        elif cursor.kind.is_expression():
            made = self.evaluated(cursor)
        else:
            bad = Unknown(VOID, f"`{self.text(cursor)[:40]}`: a statement of this sort", "`if`, `while` or `for`")
            bad.at = self.at(cursor)
            made = [Evaluate(bad)]
        for it in made:
            if it.at < 0:
                it.at = self.at(cursor)
            it.margin = it.margin or self.margin(cursor)
        return made

    def statement_readers(self) -> Dict[str, Callable[[Any], List[Statement]]]:
        return {"COMPOUND_STMT": lambda it: [self.block(it)], "DECL_STMT": self.declaration, "IF_STMT": self.if_, "WHILE_STMT": self.while_, "DO_STMT": self.do, "FOR_STMT": self.for_,
                "CXX_FOR_RANGE_STMT": self.each, "SWITCH_STMT": self.switch, "BREAK_STMT": lambda it: [self.kept(Break(), it)], "CONTINUE_STMT": lambda it: [self.kept(Continue(), it)],
                "RETURN_STMT": self.return_, "NULL_STMT": lambda it: [self.kept(Empty(), it)], "LABEL_STMT": lambda it: self.statement(kids(it)[-1])}

    def kept(self, node: Statement, cursor: Any) -> Statement:
        self.keep_statement(node, cursor)
        return node

    def evaluated(self, cursor: Any) -> List[Statement]:
        """An expression as a statement; the invokes of an upper-level task are one of their own."""
        if self.is_chain(cursor):
            return [self.chain(cursor)]
        made = Evaluate(self.expression(cursor))
        self.keep_statement(made, cursor)
        if isinstance(made.expression, Braces) and made.expression.kind == Plain("printed"):
            return [Empty()]
        return [made]

    def return_(self, cursor: Any) -> List[Statement]:
        inner = kids(cursor)
        return [Return(self.expression(inner[0]) if inner else None)]

    def head(self, cursor: Any) -> Tuple[List[Statement], List[Any]]:
        """What the head of an `if`, `while` or `switch` declares or does before its test, and the cursors from the test on."""
        parts = kids(cursor)
        words = self.words(cursor)
        opening = words.after(span(cursor)[0]) + 1
        while opening < len(words.all) and words.all[opening].text != "(":
            opening += 1
        front: List[Statement] = []
        if any(it.text == ";" for it in words.all[opening + 1:words.closing.get(opening, opening)] if it.begin < span(parts[-1])[0]):
            front += self.statement(parts[0])
            parts = parts[1:]
        if parts[0].kind == self.sort.VAR_DECL:
            front.append(Declare((self.local(parts[0]),)))
            parts = parts[1:]
        return front, parts

    def if_(self, cursor: Any) -> List[Statement]:
        """An `if`; what its head declares goes before it, into a block of its own."""
        front, parts = self.head(cursor)
        words = self.words(cursor).between(span(cursor)[0], span(cursor)[1])
        if len(words) > 1 and words[1].text == "constexpr":
            return self.if_constant(parts)
        made = If(self.expression(parts[0]), self.block(parts[1]), self.block(parts[2]) if len(parts) > 2 else None)
        if not front:
            self.keep_statement(made, cursor)
        return [Block((*front, made))] if front else [made]

    def if_constant(self, parts: List[Any]) -> List[Statement]:
        """`if constexpr`: the arm that is taken; Clang leaves the other one out."""
        arm = parts[1] if value(parts[0]) else parts[2] if len(parts) > 2 else None
        if arm is None or arm.kind.name == "NULL_STMT":
            return [Empty()]
        made = self.block(arm)
        made.text = None
        return [made]

    def while_(self, cursor: Any) -> List[Statement]:
        front, parts = self.head(cursor)
        if front:
            body = self.block(parts[-1])
            leave = If(self.negated(self.expression(parts[0])), Block((Break(),)))
            return [While(self.true(), Block((*front, leave, *body.parts), body.end))]
        macro = MACRO.match(self.words(cursor).text, span(cursor)[0])
        made = While(self.expression(parts[0]), self.block(parts[1]), macro[1] if macro else "")
        if macro is None or macro[1] == "TAPA_WHILE_NOT_EOT":
            self.keep_statement(made, cursor)
        return [made]

    def do(self, cursor: Any) -> List[Statement]:
        body, test = kids(cursor)
        return [Do(self.block(body), self.expression(test))]

    def for_(self, cursor: Any) -> List[Statement]:
        start, test, step, body = self.head_of_for(cursor)
        first = self.statement(start) if start is not None else []
        made = For(first[0] if first else None, self.expression(test) if test is not None else None, self.expression(step) if step is not None else None, self.block(body))
        self.keep_statement(made, cursor)
        return [made]

    def head_of_for(self, cursor: Any) -> Tuple[Optional[Any], Optional[Any], Optional[Any], Any]:
        """The four parts of a `for`, by the semicolons between them."""
        parts, body = kids(cursor)[:-1], kids(cursor)[-1]
        words = self.words(cursor)
        opening = words.after(span(cursor)[0]) + 1
        ends: List[int] = []
        at = opening + 1
        while at < words.closing.get(opening, len(words.all)):
            if words.all[at].text == ";":
                ends.append(words.all[at].begin)
            at = words.closing.get(at, at) + 1
        found: List[Optional[Any]] = [None, None, None]
        for it in parts:
            begin = span(it)[0]
            found[sum(1 for end in ends if end < begin)] = it
        return found[0], found[1], found[2], body

    def each(self, cursor: Any) -> List[Statement]:
        """A loop over the cells of an array."""
        parts = kids(cursor)
        variable = self.variable(parts[0])
        over = next((it for it in parts[1:-1] if it.kind.is_expression()), None)
        if over is None or isinstance(self.kind(over), (Plain, Carrier)):
            bad = Unknown(VOID, "a loop over what is no array", "a loop over an index")
            bad.at = self.at(cursor)
            return [Evaluate(bad)]
        return [ForEach(variable, self.expression(over), self.block(parts[-1]))]

    def switch(self, cursor: Any) -> List[Statement]:
        front, (test, body) = self.head(cursor)
        groups: List[Group] = []
        labels: List[Optional[Tuple[int, int]]] = []
        parts: List[Statement] = []
        for it in kids(body):
            if it.kind.name in ("CASE_STMT", "DEFAULT_STMT"):
                if labels:
                    groups.append(Group(tuple(labels), tuple(parts)))
                labels, parts = [], []
            while it.kind.name in ("CASE_STMT", "DEFAULT_STMT"):
                inner = kids(it)
                ends = [value(each) for each in inner[:-1]]
                labels.append((int(ends[0] or 0), int(ends[-1] or 0)) if it.kind.name == "CASE_STMT" and ends else None)
                it = inner[-1]
            parts += self.statement(it)
        if labels:
            groups.append(Group(tuple(labels), tuple(parts)))
        made = Switch(self.expression(test), tuple(groups))
        return [Block((*front, made))] if front else [made]
