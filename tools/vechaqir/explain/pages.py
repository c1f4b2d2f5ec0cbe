"""The pages of docs/ as the tools read them: rows of docs/FROM_TAPA.md, sections of docs/REFUSALS.md, statuses of docs/COMMAND.md; and the names by which a person calls the program and the tools."""
import functools
import os
import re
from pathlib import Path
from typing import Dict, List, NamedTuple, Optional

ROOT = os.path.dirname(os.path.dirname(os.path.dirname(os.path.dirname(os.path.abspath(__file__)))))

FROM_TAPA = re.compile(r"^\| ([^|]+) \| (file|leaf|tasks) \| `([^`]*)` \| (\w+) \| `([^`]*)` \| ((?:[^|\\]|\\.)+) \|$", re.M)


@functools.lru_cache(maxsize=None)
def command() -> str:
    """What a person calls the program: the name under which `tools/install` put it, and `tapa` elsewhere."""
    home, name = os.path.split(ROOT)
    return name if os.path.basename(home) == "lib" and os.path.isfile(os.path.join(os.path.dirname(home), "bin", name)) else "tapa"


def tool(name: str) -> str:
    """The path of a script of tools/ as a person types it where this runs, which may be a folder that is gone."""
    path = os.path.join(ROOT, "tools", name)
    try:
        near = os.path.relpath(path)
    except OSError:
        return path
    return near if near.count("..") <= 2 and len(near) < len(path) else path


def porting() -> str:
    """The path of the script that turns a TAPA source into one of the language."""
    return tool("port.py")


def version() -> str:
    """The version of the program, from the file VERSION; the empty text if there is none."""
    try:
        return Path(ROOT, "VERSION").read_text(encoding="utf-8").strip()
    except OSError:
        return ""


class Row(NamedTuple):
    """A row of docs/FROM_TAPA.md: the construct, the section, in which context its texts stand, the refused text, its code, the accepted text, and what to write instead."""

    construct: str
    section: str
    context: str
    refused: str
    code: str
    accepted: str
    instead: str

    @property
    def first(self) -> str:
        """What to write instead, without what TAPA itself does there."""
        return re.split(r"\. |: TAPA ", self.instead)[0]


@functools.lru_cache(maxsize=None)
def page(name: str) -> str:
    """A page's text; the empty one where it is not there, as in a folder that has the tools alone."""
    try:
        return Path(ROOT, "docs", name).read_text(encoding="utf-8")
    except OSError:
        return ""


@functools.lru_cache(maxsize=None)
def rows() -> Dict[str, Row]:
    """The rows of docs/FROM_TAPA.md by their constructs."""
    found = {}
    for part in re.split(r"^###? ", page("FROM_TAPA.md"), flags=re.M)[1:]:
        section = part.split("\n", 1)[0]
        for row in FROM_TAPA.findall(part):
            construct, context, refused, code, accepted, instead = (it.replace("\\|", "|") for it in row)
            found[construct] = Row(construct, section, context, refused, code, accepted, instead)
    return found


def plain(text: str) -> str:
    """A text with the words of its links in place of the links."""
    return re.sub(r"\[([^\]]*)\]\([^)]*\)", r"\1", text)


def section(name: str, heading: str) -> str:
    """The text of a page's section whose heading begins so."""
    found = re.search(rf"^##+ {re.escape(heading)}\b[^\n]*\n(.*?)(?=^##+ |\Z)", page(name), re.M | re.S)
    return found[1].strip("\n") if found else ""


def reason(code: str) -> List[str]:
    """The first paragraph of a code's section in docs/REFUSALS.md: why the rule is there."""
    return plain(section("REFUSALS.md", code).split("\n\n")[0]).splitlines()


def way_round(code: str) -> List[str]:
    """The first text of a code's section in docs/REFUSALS.md that is accepted."""
    found = re.search(r"^```(?:cpp|verilog)\n// \w+: instead\n(.*?)^```$", section("REFUSALS.md", code), re.M | re.S)
    return found[1].splitlines() if found else []


# What stands for a word of the case's own in a message of docs/COMMAND.md.
OPEN = r"\b(?:FILE|LABEL|STREAM|KEY|NAME|N)\b"


def status(told: str) -> Optional[List[str]]:
    """What docs/COMMAND.md says of a message without a place: what it means, and what to do."""
    for row in re.finditer(r"^\| \d \| `(tapa: .*?)` \| (.*?) \| *(.*?) *\|$", page("COMMAND.md"), re.M):
        message, means, advice = (cell.replace("\\|", "|") for cell in row.groups())
        if re.fullmatch("".join(".+" if at % 2 else re.escape(part) for at, part in enumerate(re.split(f"({OPEN})", message))), told):
            return [plain(cell) for cell in (means, advice) if cell and not cell.startswith("[Refusals]")]
    return None
