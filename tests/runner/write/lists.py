"""Lists that pages have of what is in the repository, each between two comments: `tests/run.py write NAME` writes them, and the runner checks that they are so."""
import re
from pathlib import Path

from runner.trial import ROOT, read

END = "<!-- end of the list -->\n"


def begin(name):
    return f"<!-- {name}: written by tests/run.py write {name} -->\n"


def put(page, name, text):
    """Puts a list in place of the one on a page."""
    before, _, after = read(page).partition(begin(name))
    if not after:
        raise ValueError(f"{page} has no place for the list {name}")
    Path(ROOT, page).write_text(before + begin(name) + text + END + after.partition(END)[2], encoding="utf-8")


def sentence(text):
    """The first sentence of a text, in one line."""
    return re.split(r"(?<=\.)\s", " ".join((text or "").split()))[0]


def check(trial, pages, name):
    """Each of these pages has its list; `pages` are what is listed on each."""
    for page, text in pages.items():
        trial.check_equal(f"{page} has the list of tests/run.py write {name}", read(page).partition(begin(name))[2].partition(END)[0], text())
