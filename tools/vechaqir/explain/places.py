"""The place of a message in a source as it is written, and its line with a caret."""
from typing import List, Tuple

from ..language import arrays, strict
from ..language.lexemes import Place
from ..language.source import Source, parse
from . import messages
from .command import contents


def in_source(source: Source, told: Place, code: str) -> Tuple[Place, str]:
    """The place in a source of a place that is reported, and the word that is there in the text with its arrays written out."""
    if code[0] not in "PC" or not has_forms(source):
        return told, ""
    try:
        written = parse(arrays.Writer(source.text).written()[0])
        line, column = arrays.source_place(source.text, told.line, told.column)
    except (arrays.Refused, strict.NoLexemes):
        return told, ""
    at = written.index_at(written.lines.offset(told))
    return Place(line, column), written.lexemes[at].text if at < len(written.lexemes) else ""


def has_forms(source: Source) -> bool:
    """Whether a source has a word with which an array of streams or a counted invoke begins, so that the text with its arrays written out may be another."""
    texts = [it.text for it in source.lexemes]
    return "streams" in texts or any(one == "invoke" and other == "<" for one, other in zip(texts, texts[1:]))


def shown_line(lines: List[bytes], place: Place) -> List[str]:
    """The line of a place, and one with a caret below its byte."""
    if not lines:
        return []
    front = lines[0][:place.column - 1].decode("utf-8", "replace").replace("\t", " ")
    whole = lines[0].decode("utf-8", "replace").rstrip().replace("\t", " ")
    return [f"{place.line:5} | {whole}", f"      | {' ' * len(front)}^"]


def placed(line: str) -> str:
    """A message, with the place in the source."""
    message = messages.parse(line)
    text = contents(message.file) if message else None
    if message is None or message.sort != "place" or message.place is None or text is None:
        return line
    place, _ = in_source(parse(text), message.place, message.code)
    return f"tapa: {message.file}:{place.line}:{place.column}: {message.code} {message.text}".rstrip()
