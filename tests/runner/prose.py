"""What docs/STYLE.md asks of the pages and a script can see: links that resolve, no bare paths, the length of sentences, words, and names that exist."""
import os
import re
from pathlib import Path

from runner.trial import ROOT, read
from vechaqir import tables
from vechaqir.show import markup

# The most words of a sentence, and of the mean of a page.
MOST, MEAN = 35, 22

# What is not written in prose, and what is written instead.
FORBIDDEN = [line.split("  =>  ") for line in read("tests/runner/forbidden.rows").splitlines()[1:]]

# What is not so, and why: the page, a piece of the finding, the reason. At most ten.
EXCEPTIONS = tables.rows(os.path.join(ROOT, "tests/runner/prose.rows"))

# Words that need not be in the repository's own files: a reader's files and places for numbers.
OPEN = re.compile(r"(?:^|_)[A-Z]+(?:_|$)")

INTERNAL_PATH = re.compile(r"(?<![\w/.])(?:(?:docs|examples|tests|tools|crates)/[\w./-]+|[\w./-]+\.(?:md|py|cpp|json|rt|antt|svg))\b")


def pages():
    """All pages of the repository."""
    tops = [name for name in ("README.md", "CONTRIBUTING.md", "CHANGELOG.md", "SECURITY.md") if os.path.exists(os.path.join(ROOT, name))]
    folders = ("docs", "examples", "tools", "tests", "crates")
    return tops + [f"{folder}/{name}" for folder in folders for name in sorted(os.listdir(os.path.join(ROOT, folder))) if name.endswith(".md")]


class Part:
    """A piece of a page: the heading above it, its sort (`text`, `list`, `table`, `heading`), and its words as they are written."""

    def __init__(self, heading, sort, text):
        self.heading, self.sort, self.text = heading, sort, text

    def prose(self):
        """The words without code, pictures and the targets of links; code is one word."""
        out, at = "", 0
        for found in markup.INLINE.finditer(self.text):
            out += self.text[at:found.start()]
            at = found.end()
            inner = found["bold"] or found["slanted"] or found["text"]
            out += Part(self.heading, self.sort, inner).prose() if inner else "" if found["image"] else "CODE"
        return " ".join((out + self.text[at:]).split())


def parts(text):
    """The parts of a page that hold words, code blocks left out."""
    heading = ""
    for block in markup.blocks(text):
        if block.sort == "heading":
            heading = block.text
            yield Part(heading, "heading", block.text)
        elif block.sort in ("list", "table"):
            for row in block.rows:
                yield from (Part(heading, block.sort, cell) for cell in row)
        elif block.sort == "text":
            yield Part(heading, "text", block.text)


def count(sentence):
    return len(re.findall(r"\S*\w\S*", sentence))


def wordy(page, text):
    """Sentences that are too long, and a mean that is."""
    lengths = []
    for part in parts(text):
        for sentence in [it for it in re.split(r"(?<=[.!?])[\"')]*\s+(?=[^a-z])", part.prose()) if it.strip()]:
            if count(sentence) > MOST:
                yield f"{part.heading}: {count(sentence)} words: {sentence}"
            if part.sort in ("text", "list"):
                lengths.append(count(sentence))
    if len(lengths) >= 10 and sum(lengths) > MEAN * len(lengths):
        yield f"{page}: the mean of its {len(lengths)} sentences is {sum(lengths) / len(lengths):.1f} words"


def unwanted(_, text):
    """Words that are not written."""
    for part in parts(text):
        prose = part.prose()
        for pattern, instead in FORBIDDEN:
            for found in re.finditer(pattern, prose):
                yield f"{part.heading}: \"{prose[max(0, found.start() - 40):found.end() + 25]}\": write {instead}"


def bare(_, text):
    """Paths of pages and files in prose that are no link, and pages that are named as code."""
    for part in parts(text):
        out = re.sub(r"https?://\S+", "", Part(part.heading, part.sort, re.sub(r"\[[^\]]*\]\([^)]*\)", "", part.text)).prose())
        for found in INTERNAL_PATH.finditer(out):
            yield f"{part.heading}: the path {found[0]} is no link"
        for found in markup.INLINE.finditer(part.text):
            code = found["code"] or ""
            if re.fullmatch(r"(?:\w+/)?[A-Z_]+\.md", code) and code != "RELEASE.md":
                yield f"{part.heading}: the page {code} is no link"


def links(text):
    """The targets of all links and pictures of a page."""
    for part in parts(text):
        yield from targets(part.text)


def targets(text):
    for found in markup.INLINE.finditer(text):
        if found["link"] or found["image"]:
            yield found["link"] or found["image"]
        if found["text"] or found["bold"] or found["slanted"]:
            yield from targets(found["text"] or found["bold"] or found["slanted"])


def dead(page, text):
    """Links that lead nowhere."""
    for target in links(text):
        path, _, name = target.partition("#")
        if re.match(r"[a-z]+:", target):
            continue
        where = os.path.normpath(os.path.join(os.path.dirname(page), path)) if path else page
        if not os.path.exists(os.path.join(ROOT, where)):
            yield f"{target} is not there"
        elif name and name not in {markup.anchor(block.text) for block in markup.blocks(read(where)) if block.sort == "heading"}:
            yield f"{target}: the page has no such heading"


def known_words():
    """Every word of the files that are no pages."""
    found = set()
    for top in ("crates", "tools", "tests", "examples", ".ci", "tapa", "crates.txt"):
        for path in files(os.path.join(ROOT, top)):
            found.update(re.findall(r"\w+", Path(path).read_text(encoding="utf-8", errors="replace")))
            found.update(re.findall(r"\w+", os.path.basename(path)))
    return found


def files(path):
    if os.path.isfile(path):
        yield path
    for folder, below, names in os.walk(path):
        below[:] = [it for it in below if it not in ("out", "__pycache__")]
        yield from (os.path.join(folder, name) for name in names if not name.endswith((".md", ".png")))


def strangers(text, known):
    """Names in code that are in no file of the repository: those with an underscore, or with capitals within."""
    for part in parts(text):
        for found in markup.INLINE.finditer(part.text):
            code = found["code"] or ""
            if re.fullmatch(r"[A-Za-z_][\w.]*(?:\(\))?", code) and re.search(r"_|[a-z][A-Z]", code):
                for word in re.findall(r"\w+", code):
                    if len(word) > 2 and word not in known and not word.endswith("_") and not OPEN.search(word):
                        yield f"{part.heading}: `{code}` is nowhere in the repository"


def try_page(trial, page, known, used):
    """Each thing that is wrong with a page."""
    text = read(page)
    for finding in dead(page, text):
        trial.check(f"{page}: {finding}", False)
    for finding in [*wordy(page, text), *unwanted(page, text), *bare(page, text), *strangers(text, known)]:
        at = next((at for at, (where, piece, _) in enumerate(EXCEPTIONS) if where == page and piece in finding), None)
        used.add(at)
        trial.check(f"{page}: {finding}", at is not None)
    trial.check(f"{page} is in the style", True)


def try_all(trial):
    known, used = known_words(), set()
    for page in pages():
        try_page(trial, page, known, used)
    stale = [it for at, it in enumerate(EXCEPTIONS) if at not in used]
    trial.check("each exception is needed, and there are at most ten", not stale and len(EXCEPTIONS) <= 10, f"   {stale}")
