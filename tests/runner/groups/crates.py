"""The list of crates, the rooms in the page How it is verified, names of definitions and laws, links between pages, and the files that the page Recipes names."""
import os
import re
from pathlib import Path

from runner.trial import ROOT, read
from runner.write import chain, crates as listed, laws, lists

# Pages whose words between ` and ` are names of the code.
OF_NAMES = ("docs/PROMISES.md", "docs/READING.md")


def texts_of_crates(crate=""):
    """All sources and definitions of the crates, or of one, as one text."""
    paths = [path for path in Path(ROOT, "crates", crate).rglob("*") if path.suffix in (".rt", ".antt") and not {"out", "must-fail"} & set(path.parts)]
    return "\n".join(path.read_text(encoding="utf-8") for path in paths)


def try_lists(trial):
    """docs/ARCHITECTURE.md has each crate with its own first sentence, and docs/VERIFIED.md a row for each room; that its links lead somewhere is tried by the group `documents`."""
    lists.check(trial, listed.LISTS, "crates")
    for room, crates in listed.rooms():
        for name in crates:
            trial.check(f"the crate {name} begins with a sentence that says what it is", listed.what_it_is(name).endswith("."))
    rooms = [room.split(":")[0] for room, _ in listed.rooms()]
    table = read("docs/VERIFIED.md").partition("## What is proved, by room")[2].partition("\n## ")[0]
    rows = re.findall(r"^\| ([\w ]+) \| .* \|$", table, re.M)
    trial.check_equal("docs/VERIFIED.md has a row for each room that has code, in the order of crates.txt", [row for row in rows if row != "room"], [room for room in rooms if not room.startswith("tests")])


def try_laws(trial):
    """docs/THEOREMS.md has each law of the crates; no two have one name, but for the laws of two crates that speak of the names of modules; and each says what it proves."""
    lists.check(trial, laws.LISTS, "laws")
    names = [law.name for law in laws.all_laws()]
    trial.check_equal("names that two laws have", sorted({name for name in names if names.count(name) > 1}), ["law_names"])
    for law in laws.all_laws():
        trial.check(f"{law.name} says what it proves", law.sentence.endswith("."), f"   {law.sentence}")


def try_chain(trial):
    """The picture of the chain of theorems is drawn by its script, and each of its names is in its crate."""
    trial.check_equal("docs/chain.svg is drawn by tests/run.py write chain", read(chain.PICTURE), "\n".join(chain.drawing()) + "\n")
    for box in chain.BOXES.values():
        crate = box.crate or chain.HOMES[box.name]
        trial.check(f"docs/chain.svg: {box.name} is in {crate}", re.search(rf"\b(?:fn |pub |record ){box.name}\b", texts_of_crates(crate)))


def try_names(trial):
    """Each name of a definition or a function that a page gives in `code` stands in a crate."""
    text = texts_of_crates()
    known = set(re.findall(r"\w+", text)) | {name for _, crates in listed.rooms() for name in crates}
    for page in OF_NAMES:
        for name in sorted(set(re.findall(r"`([A-Za-z_][\w.]*)`", read(page)))):
            trial.check(f"{page}: `{name}` is in the crates", set(name.split(".")) <= known)
    for page in ["README.md", *(f"docs/{name}" for name in sorted(os.listdir(os.path.join(ROOT, "docs"))) if name.endswith(".md"))]:
        for law in sorted(set(re.findall(r"\blaw_\w+", read(page)))):
            trial.check(f"{page}: {law} is in the crates", f"fn {law}(" in text or f"fn {law}<" in text)


def try_figures(trial):
    """docs/FIGURES.md is short, and its table of the gate has crates that there are."""
    page = read("docs/FIGURES.md")
    trial.check("docs/FIGURES.md has at most 160 lines", page.count("\n") <= 160)
    rows = re.findall(r"^\| (?:\w+ \| \d+ \| \d+ \| \d+ \|).*$", page.partition("## The gate")[2], re.M)
    named = {name for row in rows for name in re.findall(r"\b[a-z]\w+\b", row)}
    trial.check("docs/FIGURES.md has what the gate spends on crates", len(named) > 60)
    trial.check_equal("crates of docs/FIGURES.md that are gone", named - {name for _, crates in listed.rooms() for name in crates}, set())


def try_homes(trial):
    """Where docs/READING.md names definitions with their crate, or with the file, they are there."""
    page = read("docs/READING.md")
    crates = {name for _, listed_crates in listed.rooms() for name in listed_crates}
    named = re.findall(r"((?:`\w+`(?:, | and )?)+) \((?:\[\w+, \w+\]\(\.\./([\w/.]+)\)|(\w+))\)", page)
    trial.check("docs/READING.md names definitions with their crates", len(named) >= 25, f"   {len(named)}")
    for names, path, crate in named:
        text = read(path) if path else texts_of_crates(crate) if crate in crates else ""
        for name in re.findall(r"`(\w+)`", names):
            trial.check(f"docs/READING.md: `{name}` is in {path or crate}", re.search(rf"pub (?:record |data )?{name}\b", text))


def try_boxes(trial):
    """Each section of docs/PROMISES.md that begins with a box names definitions that are in the files of the box."""
    boxes = re.findall(r"^\| sentence \| .* \|\n\| clause \| .* \|\n\| record \| (.*) \|\n\| file \| (.*) \|$", read("docs/PROMISES.md"), re.M)
    trial.check("docs/PROMISES.md has boxes", len(boxes) >= 12, f"   {len(boxes)}")
    for records, files in boxes:
        text = "\n".join(text_of(path) for path in re.findall(r"\(\.\./(.*?)\)", files))
        for name in re.findall(r"`(\w+)`", records):
            trial.check(f"docs/PROMISES.md: `{name}` is in {files}", re.search(rf"\bpub (?:record |data )?{name}\b", text))


def text_of(path):
    """The text of a file, or of all definitions in a folder."""
    if path.endswith(".antt"):
        return read(path)
    return "\n".join(it.read_text(encoding="utf-8") for it in sorted(Path(ROOT, path).rglob("*.antt")))


def try_clauses(trial):
    """The clauses that docs/READING.md explains are those of the code."""
    code = read("crates/tapa_files/src/take.rt").partition("pub fn take_file")[2]
    shown = re.findall(r"^    ((?:requires|ensures) .*)$", read("docs/READING.md"), re.M)
    trial.check("docs/READING.md shows clauses", shown)
    trial.check_equal("docs/READING.md shows the clauses of take_file", shown, re.findall(r"^    ((?:requires|ensures) .*)$", code.partition("\n{")[0], re.M))


def try_links(trial):
    """Each page of the repository that a page names is there."""
    pages = ["README.md", "CONTRIBUTING.md", "examples/README.md", "tests/README.md", "tools/README.md"]
    pages += [f"docs/{name}" for name in sorted(os.listdir(os.path.join(ROOT, "docs"))) if name.endswith(".md")]
    for page in pages:
        for path in sorted(set(re.findall(r"\b(?:docs|examples|tests|tools|crates)/[\w./]*\w", read(page)))):
            trial.check(f"{page}: {path} is there", "/out/" in path or os.path.exists(os.path.join(ROOT, path)))


def try_recipes(trial):
    """Each file and folder that a recipe names exists: what has a slash, and an end by which one knows a file or a folder."""
    paths = [path for path in re.findall(r"`([\w./]+)`", read("docs/RECIPES.md")) if "/" in path and (path.endswith("/") or re.search(r"\.\w+$", path))]
    trial.check("the recipes name files", len(paths) > 40)
    for path in sorted(set(paths)):
        trial.check(f"recipe: {path}", any(os.path.exists(os.path.join(ROOT, folder, path)) for folder in ("crates", "")))
