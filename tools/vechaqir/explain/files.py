"""A file of another sort than the command takes at its place: a source for a Verilog text, a device file for a data file, and so on."""
import os
import re
from typing import List, Optional

from .. import tables
from . import pages

SOURCE, DATA, DEVICE, VERILOG, DUMP = "a TAPA source", "a data file", "a device file", "a Verilog text", "a value change dump"
# What a command takes where it reports a code, by the first letter of the code.
BY_LETTER = {"L": SOURCE, "A": SOURCE, "P": SOURCE, "C": SOURCE, "V": VERILOG, "X": DUMP}
# Why a command reads a file of a sort, and how one is come by.
READS = {sort: (reason, instead) for sort, reason, instead in tables.rows("explain/files.rows")}


def sort_of(text: bytes) -> Optional[str]:
    """What a file looks like; None where nothing tells, or it looks like two sorts."""
    front = text[:65_536].lstrip()
    if front.startswith(b"{"):
        return DATA if re.search(rb'"(scalars|memories)"\s*:', front) else DEVICE if re.search(rb'"slots"\s*:', front) else None
    if front.startswith(b"$"):
        return DUMP if b"$enddefinitions" in front else None
    found = [sort for sort, signs in ((SOURCE, rb"\btapa\s*::|^\s*#\s*include\b"), (VERILOG, rb"^\s*module\s+\w+\s*[(#;]")) if re.search(signs, front, re.M)]
    return found[0] if len(found) == 1 else None


def other_sort(wanted: str, text: Optional[bytes], instead: str = "") -> List[str]:
    """The lines of an explanation if a file is of another sort than the wanted one; none if it is not. `instead` says how a wanted file is come by."""
    found = sort_of(text) if text else None
    if found in (None, wanted):
        return []
    reason, by = READS[wanted][0], READS[wanted][1].format(command=pages.command(), template=pages.tool("template.py"))
    return [f"      = this looks like {found}, and {wanted} is needed here", f"      = why: {reason}", f"      = instead: {instead or by}"]


def swapped(words: List[str], names: List[str]) -> List[str]:
    """A line if a source among the words is not in the place of `SRC`; `names` are the words of the command in its order."""
    if "SRC" not in names or len(words) < 2:
        return []
    at = names.index("SRC")
    sources = [it for it in words if os.path.isfile(it) and sort_of(front_of(it)) == SOURCE]
    if not sources or words[at] in sources:
        return []
    return [f"      = the words are in another order: `{words[at]}` is in the place of `SRC`, and the source is `{sources[0]}`; the order is {' '.join(names)}"]


def front_of(path: str) -> bytes:
    try:
        with open(path, "rb") as file:
            return file.read(65_536)
    except OSError:
        return b""
