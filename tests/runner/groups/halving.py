"""`plan --plan split` on random devices of both versions with pins and forbidden slots, each compared with a plan that Python finds with lists of bits and rectangles of slots."""
import itertools
import random

from runner.groups.plans import TYPES, Case, check_none, check_plan, groups_of, source_of
from runner.trial import each

GRIDS = [(1, 1), (1, 2), (1, 3), (1, 4), (2, 1), (2, 2), (2, 4), (3, 1), (3, 3), (4, 2), (5, 1), (5, 3), (8, 1)]
DEVICES = 300


class Region:
    """A rectangle of slots: its first row and how many rows, its first column and how many columns."""

    def __init__(self, row, height, col, width):
        self.row, self.height, self.col, self.width = row, height, col, width

    def has(self, case, slot):
        row, col = divmod(slot, case.cols)
        return 0 <= row - self.row < self.height and 0 <= col - self.col < self.width

    def parts(self, by_rows):
        """The region's two parts, or the region alone where it is not cut."""
        size = self.height if by_rows else self.width
        first = (size + 1) // 2
        if size == 1:
            return [self]
        if by_rows:
            return [Region(self.row, first, self.col, self.width), Region(self.row + first, size - first, self.col, self.width)]
        return [Region(self.row, self.height, self.col, first), Region(self.row, self.height, self.col + first, size - first)]


def fits(case, regions):
    """Whether each group can be in the region that is given for it."""
    for region in set(regions):
        free = [slot for slot in range(case.slots) if region.has(case, slot) and slot not in case.forbidden]
        needs = [case.need(group) for group, other in enumerate(regions) if other is region]
        for kind in range(5):
            if sum(need[kind] for need in needs) * 100 > case.percent * sum(case.capacity[slot][kind] for slot in free):
                return False
        if not free:
            return False
    return all(regions[group].has(case, slot) for group, slot in case.pins.items())


def cost(case, regions):
    at = [regions[group] for group in case.group]
    ends = [(at[writer], at[reader], TYPES[kind]) for writer, reader, kind in case.streams]
    return sum(width * (abs(a.row - b.row) + abs(a.col - b.col)) for a, b, width in ends)


def next_level(case, regions, by_rows):
    """The regions of the groups one level further, by the cheapest list of bits that fits and comes first; or nothing."""
    parts = {region: region.parts(by_rows) for region in regions}
    best = None
    for bits in itertools.product((0, 1), repeat=len(regions)):
        if all(bit < len(parts[region]) for bit, region in zip(bits, regions)):
            found = [parts[region][bit] for bit, region in zip(bits, regions)]
            if fits(case, found) and (best is None or cost(case, found) < cost(case, best)):
                best = found
    return best


def levels_of(case):
    """By what each level cuts, as long as some region of the grid has more than one row, and then more than one column."""
    grid, levels = [Region(0, case.rows, 0, case.cols)], []
    while any(region.height > 1 or region.width > 1 for region in grid):
        levels.append(any(region.height > 1 for region in grid))
        grid = [part for region in grid for part in region.parts(levels[-1])]
    return levels


def halving(case):
    """The slot of each group, or the level at which no list fits."""
    regions = [Region(0, case.rows, 0, case.cols)] * len(case.first)
    if not fits(case, regions):
        return 0
    for level, by_rows in enumerate(levels_of(case), 1):
        regions = next_level(case, regions, by_rows)
        if regions is None:
            return level
    return {group: region.row * case.cols + region.col for group, region in enumerate(regions)}


class Halved(Case):
    """A program and a device for it, made at random: more slots and tighter ones than where every plan is counted out."""

    def __init__(self, seed):
        some = random.Random(f"halving {seed}")
        self.count = some.randint(1, 7)
        ends = range(self.count)
        self.streams = [(*some.choices(ends, k=2), some.choice(list(TYPES))) for _ in range(some.randint(0, self.count + 1))]
        self.group, self.first = groups_of(self.count, self.streams)
        self.rows, self.cols = some.choice(GRIDS)
        self.slots = self.rows * self.cols
        self.version = some.choice([1, 2])
        self.percent = some.choice([70, 100])
        self.capacity = [[some.choice([8, 12, 20]), 40, 40, 40, 40] for _ in range(self.slots)]
        self.uses = [[some.randint(0, 9), some.randint(0, 9), 1, 0, 2] for _ in ends]
        self.levels_rows, self.levels_cols = [2] * (self.rows - 1), [2] * (self.cols - 1)
        self.forbidden = {slot for slot in range(self.slots) if self.version == 2 and some.random() < 0.25}
        free = [slot for slot in range(self.slots) if slot not in self.forbidden]
        self.forbidden = self.forbidden if free else set()
        self.pins = {group: some.choice(free) for group in range(len(self.first)) if free and some.random() < 0.2}


@each(range(DEVICES))
def try_device(trial, seed):
    case = Halved(seed)
    trial.put("p.cpp", source_of(case.count, case.streams))
    trial.put("d.json", case.device())
    said = trial.run(["plan", "p.cpp", "T", "d.json", "--plan", "split"])
    found = halving(case)
    if isinstance(found, dict):
        check_plan(trial, f"plan split of device {seed}", case, said, found)
    else:
        check_none(trial, f"plan split of device {seed}", said, f"tapa: no halving at level {found}\n")


class Full(Case):
    """As many free groups as halving takes, each as large as a slot, on the largest grid."""

    def __init__(self, seed):
        some = random.Random(f"full {seed}")
        self.count = 22
        pairs = [(task, task + 1) for task in range(21)] + [sorted(some.sample(range(22), 2)) for _ in range(12)]
        self.streams = [(*pair, some.choice(list(TYPES))) for pair in pairs]
        self.group, self.first = groups_of(self.count, self.streams)
        self.rows, self.cols, self.slots, self.version, self.percent = 8, 4, 32, 2, 100
        self.capacity, self.uses, self.pins = [[3] * 5] * 32, [[3] * 5] * 22, {}
        self.levels_rows, self.levels_cols = [1] * 7, [1] * 3
        self.forbidden = set(some.sample(range(32), 6))


def slots_told(case, said):
    """The slots of the groups, as the lines of a plan tell them."""
    words = [line.split() for line in said.out.decode().splitlines() if line.startswith("task ")]
    return {case.group[int(label.strip(":").split("$")[1])]: int(row) * case.cols + int(col) for _, label, row, col in words}


@each(range(4))
def try_full(trial, seed):
    case = Full(seed)
    trial.put("p.cpp", source_of(case.count, case.streams))
    trial.put("d.json", case.device())
    said = trial.run(["plan", "p.cpp", "T", "d.json", "--plan", "split"])
    found = slots_told(case, said)
    name = f"plan split of 22 groups, {seed}"
    if len(found) == 22 and case.fits(found):
        check_plan(trial, name, case, said, found)
    else:
        trial.check(name, False, f"   {said}")
