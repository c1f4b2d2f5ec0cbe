"""Draws the chain of theorems, docs/chain.svg: what is proved of the program, and with which theorems, above the definitions that all of it speaks of.

Each box has a sentence, and the name of its theorem or definition with its crate. The runner checks that the picture is this one and that each name is in its crate.
"""
import os
from pathlib import Path
from typing import NamedTuple

from runner.trial import ROOT
from vechaqir import tables
from vechaqir.show import svg

PICTURE = "docs/chain.svg"
# A row and a half column of the grid, and the space between two boxes.
HEIGHT, DOWN, HALF, SPACE, LEFT, TOP = 60, 94, 144, 16, 14, 16
FILLS = {"blue": "#e3eefa", "green": "#e6f0e6", "": svg.PAPER}


class Box(NamedTuple):
    """A box: the half columns that it takes, its row, its words, its name and the crate of that, and its colour."""

    first: int
    count: int
    row: int
    words: list
    name: str
    crate: str
    fill: str

    def left(self):
        return LEFT + self.first * HALF

    def width(self):
        return self.count * HALF - SPACE

    def top(self):
        return TOP + self.row * DOWN


# The boxes of the table, and what is used for what.
BOXES, USED = {}, []
for label, first, count, row, fill, name, crate, users, *lines in tables.rows(os.path.join(ROOT, "tests/runner/write/chain.rows")):
    BOXES[label] = Box(int(first), int(count), int(row), lines, name, crate, FILLS[fill])
    USED += [(label, user) for user in users.split()]
# The crates of names that leave no room for them.
HOMES = {"law_channels_act": "hw_channel_laws", "law_one_report": "sim_output"}


def drawn_box(box):
    middle = box.left() + box.width() / 2
    yield svg.box(box.left(), box.top(), box.width(), HEIGHT, box.fill, svg.LINE, 5)
    yield from (svg.text(middle, box.top() + (19 if len(box.words) > 1 else 25) + 15 * at, line, 12, "middle") for at, line in enumerate(box.words))
    yield svg.text(middle, box.top() + 51, f"{box.name}, {box.crate}" if box.crate else box.name, 10, "middle", colour=svg.QUIET)


def arrow(lower, upper):
    """An arrow from the upper edge of a box to the lower edge of another, straight up where one is above the other."""
    left, right = max(lower.left(), upper.left()), min(lower.left() + lower.width(), upper.left() + upper.width())
    if left < right:
        middle = (left + right) / 2
        return svg.path(f"M{middle:.0f} {lower.top():.0f} L{middle:.0f} {upper.top() + HEIGHT + 2:.0f}")
    return svg.path(f"M{lower.left() + lower.width() - 40:.0f} {lower.top():.0f} L{upper.left() + 40:.0f} {upper.top() + HEIGHT + 2:.0f}")


def drawing():
    """The lines of the picture."""
    parts = [line for box in BOXES.values() for line in drawn_box(box)]
    parts += [arrow(BOXES[lower], BOXES[upper]) for lower, upper in USED]
    parts.append(svg.text(LEFT, TOP + 5 * DOWN - 12, "The definitions that all of this speaks of:", 12, colour=svg.QUIET))
    return svg.picture(2 * LEFT + 6 * HALF - SPACE, TOP + 5 * DOWN + HEIGHT + LEFT, parts)


def main(words):
    """Draws the picture anew."""
    if words:
        return 2
    Path(ROOT, PICTURE).write_text("\n".join(drawing()) + "\n", encoding="utf-8")
    return 0
