"""Headers of one's own: each that is beside the source takes the place of its first `#include`; the others are no text of the source."""
import os
import re
from typing import Dict, List, Set

from ..faults import Unusable
from .mapped import Edit, Mapped

OWN = re.compile(r'^[ \t]*#[ \t]*include[ \t]*"([^"\n]+)"[^\n]*$', re.M)
ONCE = re.compile(r"^[ \t]*#[ \t]*pragma[ \t]+once\b[^\n]*\n?", re.M)
MOST_BYTES = 1 << 20


def read(path: str) -> str:
    """The bytes of a file, each as one character."""
    with open(path, "rb") as file:
        found = file.read(MOST_BYTES + 1)
    if len(found) > MOST_BYTES:
        raise Unusable(f"{path} has more than {MOST_BYTES:,} bytes, which is the most of a source with its headers")
    if b"\0" in found:
        raise Unusable(f"{path} is no text: it has a byte 0")
    return found.decode("latin-1").replace("\r\n", "\n")


def joined(path: str) -> Mapped:
    """A source with the headers beside it."""
    seen: Set[str] = set()

    def one(file: str, depth: int) -> Mapped:
        made = Mapped.of_file(file, read(file))
        edits: List[Edit] = []
        brought: Dict[int, Mapped] = {}
        for it in OWN.finditer(made.text):
            header = os.path.normpath(os.path.join(os.path.dirname(file), it[1]))
            if not os.path.isfile(header) or os.path.basename(header) == "tapa.h":
                continue
            if depth > 64:
                raise Unusable(f"{file}: headers include one another more than 64 deep")
            if header not in seen:
                seen.add(header)
                inner = one(header, depth + 1)
                brought[len(edits)] = inner.applied([Edit(found.start(), found.end(), "") for found in ONCE.finditer(inner.text)])
            edits.append(Edit(it.start(), it.end(), ""))
        if len(made.text) + sum(len(it.text) for it in brought.values()) > MOST_BYTES:
            raise Unusable(f"{file} has more than {MOST_BYTES:,} bytes with its headers")
        return made.applied(edits, brought)

    return one(path, 0)
