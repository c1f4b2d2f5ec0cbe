"""What the program says of an open text, with its explanation, as diagnostics of the protocol."""
from typing import Any, Dict, Iterator, List, NamedTuple, Optional

from ..explain import messages, pages, places, reasons, refusals
from ..explain.base import Why
from ..explain.messages import Message
from ..host.program import NoProgram, Program
from ..language.lexemes import Place
from ..language.syntax import Source, Task
from .analysis import TOPS, Analysis
from .document import Document, uri_of

GIVEN = "/dev/stdin"
# Seconds of one call of the program, and the most refusals that are looked for.
SECONDS, MOST = 10.0, 8
ERROR = 1
STAND_IN = b"\nvoid a_task() { }\n"
# A text without these is not a TAPA source.
SIGNS = (b"tapa::", b"tapa ::", b"tapa.h")


class Found(NamedTuple):
    """A refusal of a text: its message, the offsets of what it speaks of, and the explanation if a cause was found."""

    message: Message
    begin: int
    end: int
    why: Optional[Why]
    lines: List[str]


def is_source(text: bytes) -> bool:
    return any(it in text for it in SIGNS)


class Question(NamedTuple):
    """What the program is asked: a text, its top tasks, and the place of a task that stands in for a top task that is not there, whose refusal as such does not count."""

    text: bytes
    tops: List[str]
    stand_in: Optional[Place]


def question(text: bytes, known: Analysis, wanted: Optional[str]) -> Question:
    if wanted in known.source.tasks:
        return Question(text, [wanted or ""], None)
    tops = known.tops()[:TOPS]
    if tops:
        return Question(text, tops, None)
    last = next(reversed(list(known.source.tasks.values())), None)
    if last:
        return Question(text, [last.name], last.place)
    return Question(text + STAND_IN, ["a_task"], Place(text.count(b"\n") + 2, len("void ") + 1))


def refusal(asked: Program, text: bytes, top: str) -> Optional[Message]:
    """What the program refuses in a text; None if it is accepted."""
    outcome = asked.call(["run", GIVEN, top, "--steps=1"], text, SECONDS)
    lines = outcome.err.decode("utf-8", "replace").splitlines()
    if outcome.status not in (0, 1, 3, 7, 8):
        raise NoProgram(lines[0] if lines else f"status {outcome.status}")
    told = (messages.parse(line) for line in lines)
    return next((it for it in told if it and it.sort == "place"), None) if outcome.status == 1 else None


def first(asked: Program, text: bytes, known: Analysis, wanted: Optional[str]) -> Optional[Message]:
    """The first refusal of a text by any of its top tasks."""
    given = question(text, known, wanted)
    told = [refusal(asked, given.text, top) for top in given.tops]
    found = [it for it in told if it and (it.code, it.place) != ("C3", given.stand_in)]
    return min(found, key=lambda it: it.place or Place(1, 1)) if found else None


def located(source: Source, message: Message, top: str) -> Found:
    """A refusal with its place in the source and its explanation."""
    told = message.place or Place(1, 1)
    place, word = places.in_source(source, told, message.code)
    why, lines = refusals.explained(source, place, message.code, message.text, top, word)
    begin = source.lines.offset(place)
    at = source.index_at(begin)
    is_word = at < len(source.lexemes) and source.lexemes[at].begin <= begin
    end = source.lexemes[at].end if is_word else min(begin + 1, len(source.text))
    return Found(message, begin, end, why, lines)


def without_body(text: bytes, task: Task) -> bytes:
    """A text with the body of a task made blank, so that what follows it is checked too."""
    begin, end = task.body[0] + 1, task.body[1] - 1
    return text[:begin] + bytes(it if it == 10 else 32 for it in text[begin:end]) + text[end:]


def faults(asked: Program, text: bytes, known: Analysis, wanted: Optional[str] = None) -> Iterator[Found]:
    """The first refusal of a text, and, if it is in a leaf task, those that follow if the body of that task is left out."""
    left = text
    for _ in range(MOST):
        message = first(asked, left, known, wanted)
        if message is None:
            return
        found = located(known.source, message, (known.tops() or [""])[0])
        yield found
        task = known.source.task_at(found.begin)
        if task is None or task.is_upper or message.code[0] == "A":
            return
        left, before = without_body(left, task), left
        if left == before:
            return


# ---- as the protocol has it


def text_of(found: Found) -> str:
    """The message of a diagnostic: what, why, instead, and the example."""
    if found.why is None:
        return "\n".join(stripped(it) for it in found.lines[:-1])
    why = found.why
    reason = why.reason or reasons.of(found.message.code)
    lines = [*why.says, *([f"why: {reason}"] if reason else []), *([f"instead: {why.instead}"] if why.instead else []), *(["for example:"] if why.example else []), *(f"    {it}" for it in why.example)]
    return "\n".join(lines)


def stripped(line: str) -> str:
    """A line of an explanation without its front."""
    front = line[:8]
    return line[8:] if front == "      = " else "    " + line[10:] if front == "      | " else line.strip()


def page_of(found: Found) -> Optional[str]:
    """The URI of the page with more."""
    page = (found.why.page if found.why else "") or "docs/REFUSALS.md"
    name = page.split(",")[0].strip()
    return uri_of(f"{pages.ROOT}/{name}") if pages.page(name.removeprefix("docs/")) else None


def diagnostic(document: Document, found: Found) -> Dict[str, Any]:
    page = page_of(found)
    told: Dict[str, Any] = {
        "range": document.range(found.begin, found.end),
        "severity": ERROR,
        "source": "tapa",
        "code": found.message.code,
        "message": f"{found.message.text}: {text_of(found)}".strip(": "),
    }
    return {**told, "codeDescription": {"href": page}} if page else told
