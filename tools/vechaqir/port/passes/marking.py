"""Places that are left to change by hand."""
from ..faults import Refused
from ..tree.nodes import Unknown
from ..tree.program import Program
from ..tree.statements import Block, Do, For, ForEach, Group, If, Marked, Statement, Switch, While
from ..tree.walking import children, walk


def marked(program: Program, it: Statement, why: Refused) -> Marked:
    """A statement as it is written, with the reason why it is left."""
    at = why.at if why.at >= 0 else it.at
    mark = program.mark(at, why.why, why.instead)
    text = written(program, it)
    made = Marked(tuple(text), mark.line, str(mark))
    made.at, made.margin = it.at, it.margin
    return made


def written(program: Program, it: Statement) -> "list[str]":
    """The lines of a statement in the expanded text, up to its `;` or its closing brace."""
    from ..source.lexing import Words
    if it.at < 0:
        return [";"]
    text = program.source.text
    words = Words(text[it.at:it.at + 20000])
    end, is_compound = 0, isinstance(it, (If, While, For, Do, ForEach, Switch, Block))
    at = 0
    while at < len(words.all):
        word = words.all[at]
        end = word.end
        at = words.closing.get(at, at) + 1
        end = words.all[at - 1].end if at - 1 < len(words.all) else end
        if word.text == ";" or word.text == "{" and is_compound and not (at < len(words.all) and words.all[at].text == "else"):
            break
    return words.text[:end].splitlines()


def unknown(program: Program) -> None:
    """Marks each statement with an expression that no pass knows."""
    from ..tree.walking import statements

    def own(it: Statement) -> "list[Unknown]":
        """What is unknown in a statement itself, and not in those within it."""
        out: "list[Unknown]" = []
        stack = [each for each in children(it) if not isinstance(each, (Block, Group))]
        while stack:
            node = stack.pop()
            if isinstance(node, Unknown):
                out.append(node)
            stack += [each for each in children(node) if not isinstance(each, Block)]
        return out

    def change(it: Statement) -> "list[Statement] | None":
        if isinstance(it, Block):
            return None
        found = own(it)
        return [marked(program, it, Refused(found[0].at, found[0].why, found[0].instead))] if found else None
    for function in [*program.tasks, *program.helpers]:
        if function.body is not None and any(isinstance(it, Unknown) for it in walk(function.body)):
            function.body = statements(function.body, change)


def tolerant(program: Program, body: Block, change: "Callable[[Statement], Statement]") -> Block:
    """A body with each statement changed; one that cannot be is marked, and those around it are changed."""
    from ..tree.walking import mapped, replaced

    def one(it: Statement) -> Statement:
        if isinstance(it, Block):
            parts = tuple(one(each) for each in it.parts)
            return it if all(a is b for a, b in zip(parts, it.parts)) else replaced(it, parts=parts)
        try:
            inner = mapped(it, lambda each: one(each) if isinstance(each, Block) else each)
            return change(inner)
        except Refused as why:
            return marked(program, it, why)
    made = one(body)
    assert isinstance(made, Block)
    return made


from typing import Callable  # noqa: E402
