"""The rules of the page Contributing on crates, functions, files, arguments, copies, comments and unused definitions: exceptions are in `runner/exceptions.txt`, which may only
get shorter (`tests/run.py house --shrink`). No crate without code but for laws, lines and meanings, small crates, functions and files, few arguments, no body twice, no
definition that nothing names, no comment that leans on another. `tests/run.py house` prints what is found."""
import os
import re
from collections import Counter
from pathlib import Path

from runner.trial import ROOT, read

LINES, FILE, CRATE, ARGUMENTS = 40, 500, 1500, 8
# Bodies of fewer letters are not looked at for copies.
COPY = 80
EXCEPTIONS = "tests/runner/exceptions.txt"


def closing(text, at, pair):
    """The place behind the sign that closes the one at a place."""
    depth = 0
    for place in range(at, len(text)):
        depth += (text[place] == pair[0]) - (text[place] == pair[1])
        if not depth:
            return place + 1
    return len(text)


def count_of(parameters):
    """How many parameters stand between parentheses, besides `self`."""
    depth, count, part = 0, 0, ""
    for sign in re.sub(r"->|=>", "  ", parameters) + ",":
        depth += (sign in "(<[{") - (sign in ")>]}")
        if sign == "," and not depth:
            count += bool(part.strip()) and not re.fullmatch(r"\s*(?:&\s*)?(?:'\w+\s+)?(?:mut\s+)?self\s*", part)
            part = ""
        else:
            part += sign
    return count


class Function:
    """A function of a crate: its name, how many arguments it has, and its body between the braces, None where it has none."""

    def __init__(self, name, arguments, body):
        self.name, self.arguments, self.body = name, arguments, body
        self.is_empty = not (body or "").strip()

    def lines(self):
        return len((self.body or "").strip("\n").splitlines())


def functions(text):
    """The functions of a file; contracts stand between the head and the body."""
    code = re.sub(r'//[^\n]*|b?"(?:\\.|[^"\\])*"|b?\'(?:\\.[^\']*|[^\'\\\n])\'', lambda it: " " * len(it[0]), text, flags=re.S)
    for head in re.finditer(r"\bfn\s+(\w+)\s*(?:<[^({]*>)?\s*\(", code):
        at = closing(code, head.end() - 1, "()")
        arguments = count_of(code[head.end():at - 1])
        while True:
            found = re.compile(r"[{;]").search(code, at)
            if not found or found[0] == ";":
                yield Function(head[1], arguments, None)
                break
            end = closing(code, found.start(), "{}")
            if not re.search(r"\b(?:requires|ensures|ghost|where)\b[^{}]*$", code[at:found.start()]) or code[:found.start()].endswith("\n" + " " * (len(code[:found.start()]) - code.rfind("\n", 0, found.start()) - 1)):
                yield Function(head[1], arguments, text[found.start() + 1:end - 1])
                break
            at = end


def files(crate, folder="src", ending=".rt"):
    """The sources of a crate, or the files of another folder of it, each with its text."""
    for path in sorted(Path(ROOT, "crates", crate, folder).rglob(f"*{ending}")):
        yield str(path.relative_to(ROOT)), path.read_text(encoding="utf-8")


def definitions(crate):
    """The definitions and proofs of a crate, each with its text."""
    for folder in ("specs", "proofs"):
        yield from files(crate, folder, ".antt")


def comments(text):
    """The comments of a file, each by its first line."""
    before = ""
    for line in text.splitlines():
        found = re.match(r"\s*(?:///|//!|//|--)\s?(.*)", line)
        if found and not re.match(r"\s*(?:///|//!|//|--)", before):
            yield found[1]
        before = line


def leaning(text):
    return [comment for comment in comments(text) if re.match(r"(?:The same|And)\b", comment)]


def found_in(crate, bodies):
    """What of a crate is an exception; its bodies are put beside those of the others."""
    has_code, lines = False, 0
    for path, text in files(crate):
        name = os.path.basename(path)
        lines += sum(bool(line.strip()) for line in blank_comments(text).splitlines())
        if len(text.splitlines()) > FILE:
            yield f"file {name}"
        has_code |= bool(re.search(r"^\s*pub (?:struct|enum|trait) ", text, re.M))
        for it in functions(text):
            has_code |= not it.is_empty
            if it.lines() > LINES:
                yield f"body {it.name}"
            if it.arguments > ARGUMENTS:
                yield f"arguments {it.name}"
            short = " ".join(blank_comments(it.body or "").split())
            if len(short) >= COPY:
                bodies.setdefault(short, []).append((crate, it.name))
        yield from (f"comment {comment[:80]}" for comment in leaning(text))
    for path, text in definitions(crate):
        if len(text.splitlines()) > FILE:
            yield f"file {os.path.basename(path)}"
        if "/specs/" in path:
            yield from (f"comment {comment[:80]}" for comment in leaning(text))
    if lines >= CRATE:
        yield f"size {crate}"
    if not has_code and not crate.endswith(("_laws", "_lines", "_meaning")):
        yield f"crate {crate}"


def blank_comments(text):
    return re.sub(r"//[^\n]*", "", text)


HEAD = re.compile(r"(?:abbrev |unfoldable )?pub (?:abbrev |unfoldable |record |data )?(\w+)")


def uncited(crates):
    """The definitions that no line names but those that define them."""
    defined, cited = {}, set()
    for crate in crates:
        for path, text in [*definitions(crate), *files(crate)]:
            for line in text.splitlines():
                words = set(re.findall(r"\w+", line))
                head = HEAD.match(line) if "/specs/" in path else None
                if head and head[1][0] != "_":
                    defined.setdefault(head[1], path)
                begun = head[1] if head else (re.match(r"\w*", line)[0])
                cited |= words - {begun}
    for name in ["README.md", *(os.path.join("docs", it) for it in os.listdir(os.path.join(ROOT, "docs")))]:
        if name.endswith(".md"):
            cited |= set(re.findall(r"\w+", read(name)))
    return [f"uncited {name}" for name in defined if name not in cited]


def found():
    """Every exception that there is, in order."""
    bodies, all_of_them = {}, []
    crates = [it for it in sorted(os.listdir(os.path.join(ROOT, "crates"))) if os.path.isdir(os.path.join(ROOT, "crates", it, "src"))]
    for crate in crates:
        all_of_them += found_in(crate, bodies)
    all_of_them += uncited(crates)
    for places in bodies.values():
        if len({crate for crate, _ in places}) > 1:
            all_of_them.append("twice " + " ".join(sorted({name for _, name in places})))
    return sorted(all_of_them)


def listed():
    return [line for line in read(EXCEPTIONS).splitlines() if line and not line.startswith("# ")]


def without(some, others):
    """Those of a list that another does not have as often."""
    return list((Counter(some) - Counter(others)).elements())


def try_all(trial):
    are, known = found(), listed()
    for new in without(are, known):
        trial.check(f"a new exception: {new}", False, f"   make it smaller; {EXCEPTIONS} has the old ones")
    for old in without(known, are):
        trial.check(f"{EXCEPTIONS}: {old} holds no more", False, "   tests/run.py house --shrink takes such lines away")
    trial.check("the exceptions are looked at", True)
