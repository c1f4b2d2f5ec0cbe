"""Rows as lines of columns, for people."""
from typing import Iterator, Sequence


def columns(rows: Sequence[Sequence[object]], indent: str = "") -> Iterator[str]:
    """Words to the left and numbers to the right, by what is below the first row; the last column is as wide as it is."""
    cells = [[str(cell) for cell in row] for row in rows]
    widths = [max(map(len, column)) for column in zip(*cells)]
    is_right = [all(cell.replace(".", "").isdecimal() or not cell for cell in column[1:]) for column in zip(*cells)]
    for row in cells:
        yield indent + "  ".join(cell.rjust(width) if right else cell.ljust(width) for cell, width, right in zip(row, widths, is_right)).rstrip()
