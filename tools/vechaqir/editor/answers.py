"""The answers to requests on open texts: hover, definition, references, symbols, rename and completion."""
from typing import Any, Callable, Dict, List, Optional

from ..host.program import Program
from ..language.scopes import Name
from . import complete, hover, rename
from .analysis import Analysis
from .beside import Profiles
from .document import Document
from .protocol import INVALID_PARAMS, REQUEST_FAILED, Wrong, member, optional, text_at

# Kinds of symbols in the protocol.
FUNCTION, VARIABLE, CONSTANT = 12, 13, 14


class Context:
    """The open texts, each as it is read for its version, and what the client can show."""

    def __init__(self, program: Callable[[], Optional[Program]]) -> None:
        self.program = program
        self.documents: Dict[str, Document] = {}
        self.saved: Dict[str, str] = {}
        self.kept: Dict[str, Analysis] = {}
        self.profiles = Profiles()
        self.units, self.is_markdown = "utf-16", False
        self.top: Optional[str] = None

    def document(self, params: Any) -> Document:
        uri = text_at(params, "textDocument", "uri")
        if uri not in self.documents:
            raise Wrong(INVALID_PARAMS, "the document is not open")
        return self.documents[uri]

    def analysis(self, document: Document) -> Analysis:
        if document.uri not in self.kept:
            self.kept[document.uri] = Analysis(document.bytes, document.path)
        return self.kept[document.uri]

    def forget(self, uri: str) -> None:
        self.kept.pop(uri, None)


class At:
    """The place of a request: the document, the offset, and the lexeme and the declared name that are there."""

    def __init__(self, context: Context, params: Any) -> None:
        self.document = context.document(params)
        self.offset = self.document.offset(member(params, "position"))
        self.known = context.analysis(self.document)
        self.word = self.known.word_at(self.offset)
        self.name: Optional[Name] = self.known.declared(self.word) if self.word is not None else None

    def range(self, at: int) -> Dict[str, Any]:
        word = self.known.view.words[at]
        return self.document.range(word.begin, word.end)

    def location(self, at: int) -> Dict[str, Any]:
        return {"uri": self.document.uri, "range": self.range(at)}


def hovered(context: Context, params: Any) -> Any:
    here = At(context, params)
    is_saved = context.saved.get(here.document.uri) == here.document.text
    line = here.known.source.place(here.offset).line
    lines = hover.shown(here.known, here.word, line, context.profiles.of(here.document.path), is_saved)
    if not lines:
        return None
    value = "\n\n".join(lines) if context.is_markdown else "\n".join(lines).replace("`", "")
    found = {"contents": {"kind": "markdown" if context.is_markdown else "plaintext", "value": value}}
    return {**found, "range": here.range(here.word)} if here.word is not None else found


def defined(context: Context, params: Any) -> Any:
    here = At(context, params)
    return here.location(here.name.at) if here.name else None


def referred(context: Context, params: Any) -> Any:
    here = At(context, params)
    if here.name is None:
        return []
    with_declaration = optional(params, "context", "includeDeclaration") is not False
    return [here.location(at) for at in here.known.occurrences(here.name) if with_declaration or at != here.name.at]


def highlighted(context: Context, params: Any) -> Any:
    here = At(context, params)
    return [{"range": here.range(at)} for at in here.known.occurrences(here.name)] if here.name else []


def renamable(context: Context, params: Any) -> Any:
    here = At(context, params)
    return {"range": here.range(here.word or 0), "placeholder": here.name.name} if here.name else None


def renamed(context: Context, params: Any) -> Any:
    here = At(context, params)
    word = text_at(params, "newName")
    if here.name is None:
        raise Wrong(REQUEST_FAILED, "no name that this text declares is here")
    places = rename.renamed(here.known, here.name, word, context.program())
    edits = [{"range": here.document.range(begin, end), "newText": word} for begin, end in places]
    return {"changes": {here.document.uri: edits}}


def completed(context: Context, params: Any) -> Any:
    here = At(context, params)
    found = []
    for it in complete.items(here.known, here.offset):
        item: Dict[str, Any] = {"label": it.label, "kind": it.kind, "insertText": it.put, "sortText": f"{it.rank}{it.label}"}
        item.update({"detail": it.note} if it.note else {})
        item.update({"documentation": it.does} if it.does else {})
        found.append(item)
    return {"isIncomplete": False, "items": found}


def symbols(context: Context, params: Any) -> Any:
    """The constants and tasks of a text, each task with its streams."""
    document = context.document(params)
    known = context.analysis(document)
    found: List[Dict[str, Any]] = []
    for item in known.view.items:
        if item.kind not in ("constant", "task") or not item.name or item.end > len(known.view.words):
            continue
        at = next((it for it in range(item.begin, item.end) if known.view.text(it) == item.name), item.begin)
        word, last = known.view.words[at], known.view.words[max(item.end - 1, item.begin)]
        task = known.source.tasks.get(item.name) if item.kind == "task" else None
        inner = [symbol(document, it.name, VARIABLE, it.place, known) for it in (task.streams if task else []) if it.name]
        found.append({
            "name": item.name, "kind": FUNCTION if item.kind == "task" else CONSTANT, "range": document.range(known.view.words[item.begin].begin, last.end),
            "selectionRange": document.range(word.begin, word.end), "children": inner,
        })
    return found


def symbol(document: Document, name: str, kind: int, place: Any, known: Analysis) -> Dict[str, Any]:
    begin = known.source.lines.offset(place)
    around = document.range(begin, begin + len(name))
    return {"name": name, "kind": kind, "range": around, "selectionRange": around}


ANSWERS: Dict[str, Callable[[Context, Any], Any]] = {
    "textDocument/hover": hovered,
    "textDocument/definition": defined,
    "textDocument/references": referred,
    "textDocument/documentHighlight": highlighted,
    "textDocument/prepareRename": renamable,
    "textDocument/rename": renamed,
    "textDocument/completion": completed,
    "textDocument/documentSymbol": symbols,
}
