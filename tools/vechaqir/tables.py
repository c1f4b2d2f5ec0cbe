"""Tables in files beside the modules: a row a line, two blanks or more between its fields, `-` for an empty one; a line that begins with `# ` is a comment. And texts with places for values."""
import os
import re
from typing import Dict, Iterable, List, Mapping


def rows(name: str) -> List[List[str]]:
    """The rows of a table, by its path within the package."""
    with open(os.path.join(os.path.dirname(__file__), name), encoding="utf-8") as file:
        return [["" if it == "-" else it for it in re.split("  +", line.rstrip("\n"))] for line in file if line.strip() and not line.startswith("# ")]


def texts(name: str) -> Dict[str, str]:
    """The texts of a file, by its path within the package: each behind a line `=== NAME`."""
    with open(os.path.join(os.path.dirname(__file__), name), encoding="utf-8") as file:
        parts = re.split(r"^=== (\w+)\n", file.read(), flags=re.M)
    return dict(zip(parts[1::2], parts[2::2]))


def filled(text: str, **values: object) -> str:
    """A text with these values in place of their names, each between two `@`."""
    return re.sub(r"@(\w+)@", lambda it: str(values[it[1]]), text)


def repeated(text: str, each: Iterable[Mapping[str, object]]) -> str:
    """A text once for each of these, with its values."""
    return "".join(filled(text, **values) for values in each)
