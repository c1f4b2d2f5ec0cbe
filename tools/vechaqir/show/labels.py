"""Labels in a picture whose arrows are curves: those of streams and upper-level tasks are moved to where no arrow, box or other label is."""
from __future__ import annotations

from math import dist
from typing import Dict, Iterator, List, Optional, Sequence, Tuple

from .graph import NAME_DOWN, SMALL, Box, Picture, Wire
from .svg import text_width

Point = Tuple[float, float]
# left, top, right and bottom
Area = Tuple[float, float, float, float]

# The size of a cell in which points of arrows are looked up, the distance of these points, and the room around a label.
CELL, STEP, ROOM = 16, 3, 3
# How far a name and its facts reach above and below the height of their label.
ABOVE, BELOW = 15.5, 13.5
# The room left of the name of an upper-level task, and how far it is moved at once.
LEFT, MOVE = 8, 4


def width_of(it: Wire) -> float:
    return max(text_width(it.label, SMALL, True), text_width(it.facts, SMALL))


def points_of(curve: Sequence[Point]) -> List[Point]:
    """Points on a line that begins at a point and has three more for each cubic curve, and perhaps a last one for a straight end."""
    found = [curve[0]]
    for at in range(0, len(curve) - 3, 3):
        one, two, three, four = curve[at:at + 4]
        count = int((dist(one, two) + dist(two, three) + dist(three, four)) / STEP) + 1
        for number in range(1, count + 1):
            t = number / count
            shares = ((1 - t) ** 3, 3 * t * (1 - t) ** 2, 3 * t ** 2 * (1 - t), t ** 3)
            found.append((sum(it[0] * share for it, share in zip((one, two, three, four), shares)), sum(it[1] * share for it, share in zip((one, two, three, four), shares))))
    return [*found, curve[-1]]


class Room:
    """What of a picture is taken: points of arrows by their cells, boxes, and labels."""

    def __init__(self, found: Picture, lines: Sequence[Sequence[Point]]) -> None:
        self.width, self.height = found.width, found.height
        self.taken = [(it.x, it.y, it.x + it.width, it.y + it.height) for it in found.boxes if it.kind != "upper"]
        self.borders = [(it.x, it.y, it.x + it.width, it.y + it.height) for it in found.boxes if it.kind == "upper"]
        self.points: Dict[Tuple[int, int], List[Point]] = {}
        for x, y in (point for line in lines for point in line):
            self.points.setdefault((int(x // CELL), int(y // CELL)), []).append((x, y))

    def is_free(self, area: Area) -> bool:
        left, top, right, bottom = area
        if left < 0 or top < 0 or right > self.width or bottom > self.height or any(_meet(area, it) for it in self.taken):
            return False
        if any(_meet(area, it) and not (it[0] <= area[0] and area[2] <= it[2] and it[1] <= area[1] and area[3] <= it[3]) for it in self.borders):
            return False
        return not self.has_arrow(area)

    def has_arrow(self, area: Area) -> bool:
        """Whether an arrow leads through an area."""
        left, top, right, bottom = area
        cells = ((column, row) for column in range(int(left // CELL), int(right // CELL) + 1) for row in range(int(top // CELL), int(bottom // CELL) + 1))
        return any(left < x < right and top < y < bottom for cell in cells for x, y in self.points.get(cell, ()))


def _meet(one: Area, other: Area) -> bool:
    return one[0] < other[2] and other[0] < one[2] and one[1] < other[3] and other[1] < one[3]


def _around(it: Wire, room: float = 0) -> Area:
    return it.label_x - room, it.label_y - ABOVE - room, it.label_x + width_of(it) + room, it.label_y + BELOW + room


def _places(it: Wire, line: Sequence[Point]) -> Iterator[Wire]:
    """A label next to its own arrow, at the places that are nearest to its own first."""
    width, beside = width_of(it), ROOM + 1
    found = [(x + right, y + down) for x, y in line[::4] for right in (-width - beside, -width / 2, beside) for down in (-BELOW - beside, 0, ABOVE + beside)]
    yield from (it._replace(label_x=x, label_y=y) for x, y in sorted(found, key=lambda place: dist(place, (it.label_x, it.label_y))))


def _name_area(it: Box) -> Area:
    """The name of an upper-level task with some room around."""
    return it.label_x - 2, it.label_y - SMALL - 2, it.label_x + text_width(it.label, SMALL) + 2, it.label_y + SMALL / 4 + 2


def _named(it: Box, room: Room) -> Optional[Box]:
    """The box of an upper-level task with its name inside the upper border, from the left one on where it has room, or None."""
    most = int(it.width - text_width(it.label, SMALL)) - 2 * LEFT
    places = (it._replace(label_x=it.x + LEFT + right, label_y=it.y + NAME_DOWN) for right in range(0, most + 1, MOVE))
    return next((place for place in places if room.is_free(_name_area(place))), None)


def _name_uppers(found: Picture, room: Room) -> bool:
    """Puts the names of upper-level tasks where they have room; says whether each has some."""
    for number, it in enumerate(found.boxes):
        if it.kind == "upper":
            named = _named(it, room)
            if named is None:
                return False
            room.taken.append(_name_area(named))
            found.boxes[number] = named
    return True


def with_room(found: Picture, lines: Sequence[Sequence[Point]]) -> Optional[Picture]:
    """The picture with each label where it has room, or None if one has none or an arrow is over a task. `lines` has points on the arrow of each wire."""
    room, moved = Room(found, lines), []
    if any(room.has_arrow((it.x + 2, it.y + 2, it.x + it.width - 2, it.y + it.height - 2)) for it in found.boxes if it.kind != "upper"):
        return None
    if not _name_uppers(found, room):
        return None
    for number, it in enumerate(found.wires):
        if room.is_free(_around(it)):
            room.taken.append(_around(it))
        else:
            moved.append(number)
    for number in moved:
        places = list(_places(found.wires[number], lines[number]))
        place = next((it for more in (ROOM, 0) for it in places if room.is_free(_around(it, more))), None)
        if place is None:
            return None
        room.taken.append(_around(place))
        found.wires[number] = place
    return found
