"""The words of the language as an editor shows them: methods of streams, what may follow `tapa::`, and the other words of a task."""
from typing import Dict, List, NamedTuple


class Word(NamedTuple):
    """A word: what is written for it, and what it does in a sentence."""

    written: str
    does: str


INPUT: Dict[str, Word] = {
    "read": Word("read()", "Takes the next token; waits while the stream is empty."),
    "peek": Word("peek(nullptr)", "The next token, which stays in the stream; waits while the stream is empty."),
    "eot": Word("eot(nullptr)", "Whether the next token is the end of a transaction; waits while the stream is empty."),
    "open": Word("open()", "Takes the end of a transaction; the task stops for good at any other token."),
}
OUTPUT: Dict[str, Word] = {
    "write": Word("write(e)", "Writes a token; waits while the stream is full."),
    "close": Word("close()", "Writes the end of a transaction; waits while the stream is full."),
}
OF_TAPA: Dict[str, Word] = {
    "istream": Word("istream<int>& q", "A parameter that is read: one end of a stream."),
    "ostream": Word("ostream<int>& q", "A parameter that is written: one end of a stream."),
    "mmap": Word("mmap<int> m", "A parameter that is a memory of the top task; `mmap<const int>` is only read."),
    "stream": Word("stream<int, 2> q;", "A bounded stream of an upper-level task; its depth is 2 if none is written."),
    "streams": Word("streams<int, 4, 2> q;", "An array of streams, written out as `q_0`, `q_1` and so on: kind, number, depth."),
    "task": Word("task()", "Begins the chain of an upper-level task: `tapa::task().invoke(F, ..).invoke(G, ..);`."),
    "join": Word("join", "The mode of an invoke whose task the run waits for, as without a mode."),
    "detach": Word("detach", "The mode of an invoke whose task the run does not wait for."),
}
INVOKE = Word("invoke(F, ..)", "Makes an instance of a task, with its arguments in the order of the parameters; `invoke<tapa::join, 4>` makes four.")
STATEMENTS: Dict[str, Word] = {
    "TAPA_WHILE_NOT_EOT": Word("TAPA_WHILE_NOT_EOT(q) { }", "A loop until the next token of a stream is the end of a transaction, which `open()` then takes."),
    "if": Word("if", "A test takes a cycle."),
    "else": Word("else", ""),
    "while": Word("while", "Each test of a loop takes a cycle."),
    "for": Word("for", "Initialisation, each test and each step take a cycle."),
    "break": Word("break", "Leaves the innermost loop."),
    "continue": Word("continue", "Goes on with the next iteration of the innermost loop."),
    "const": Word("const", ""),
    "true": Word("true", ""),
    "false": Word("false", ""),
    "static_cast": Word("static_cast<int>(e)", "A conversion."),
}
KINDS: List[str] = ["bool", "int", "short", "long", "unsigned", "size_t", *(f"{sign}int{bits}_t" for bits in (8, 16, 32, 64) for sign in ("", "u"))]
FILE: List[str] = ["const", "constexpr", "void"]
EITHER: Dict[str, Word] = {**INPUT, **OUTPUT}


def methods(sort: str) -> Dict[str, Word]:
    """The methods of a name of some sort."""
    return {"istream": INPUT, "ostream": OUTPUT}.get(sort, {})
