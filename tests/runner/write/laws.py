"""The laws of the crates, as docs/THEOREMS.md lists them: by room from the last to the first, of each law what it says and where it stands.

A law is a function `law_*` that does nothing: its contract is what is proved, and its `///` lines say it in words.
"""
import collections
import os
import re
from pathlib import Path

from runner.trial import ROOT, read
from runner.write import crates

Law = collections.namedtuple("Law", "name crate path sentence clauses")
CONTRACT = re.compile(r"((?:^///[^\n]*\n)*)^pub fn (law_\w+)\(\)\n(.*?)^\{", re.M | re.S)


def sources(crate):
    """The files of a crate's code."""
    return [os.path.relpath(path, ROOT) for path in sorted(Path(ROOT, "crates", crate, "src").rglob("*.rt"))]


def cited(clause):
    """A clause's name, and the definitions that it cites where it is no more than one of them."""
    name, said = re.match(r"\s*(\w*)\s*\{(.*)\}\s*$", clause, re.S).groups()
    cites = re.fullmatch(r"\s*(\w+)\s*", said)
    return " ".join(it for it in (name, f"`{cites.group(1)}`" if cites else "") if it)


def laws_in(path):
    """The laws of a file."""
    for found in CONTRACT.finditer(read(path)):
        comment = " ".join(line[3:].strip() for line in found.group(1).splitlines())
        clauses = [cited(it) for it in re.split(r"^ {4}ensures", found.group(3), flags=re.M)[1:]]
        yield Law(found.group(2), path.split("/")[1], path, comment, [it for it in clauses if it])


def laws(crate):
    """The laws of a crate, file by file."""
    return [law for path in sources(crate) for law in laws_in(path)]


def all_laws():
    return [law for _, names in crates.rooms() for name in names for law in laws(name)]


def row(law):
    place = os.path.relpath(law.path, "crates")
    return f"| `{law.name}` | {law.sentence} | {', '.join(law.clauses) or 'written out there'} | [{place}](../{law.path}) |\n"


def text():
    """The rooms with their laws, those of whole sources first."""
    parts = []
    for heading, names in reversed(crates.rooms()):
        rows = [row(law) for name in reversed(names) for law in laws(name)]
        if rows:
            parts.append(f"## Laws of {heading}\n\n| law | what it says | clauses | place |\n|---|---|---|---|\n{''.join(rows)}\n")
    return "".join(parts)


LISTS = {"docs/THEOREMS.md": text}
