"""`plan` on random graphs of up to five tasks, compared with all plans and with first fit as Python finds them, and on graphs of sixteen tasks in 16 shapes
(`runner/made/shapes.py`), with their certificates."""
import itertools
import json
import random

from runner.made.shapes import ORDERS, PLACES, SHAPES, shaped, slots_of
from runner.groups.sources import bytes_of, parts, table
from runner.trial import each, read

KINDS = ["LUT", "FF", "BRAM", "DSP", "URAM"]
TYPES = {"bool": 2, "uint8_t": 9, "int": 33, "uint64_t": 65}
GRAPHS = 60


def source_of(count, streams):
    """A program whose task Ti is the i-th instance; a stream is a writer, a reader and a type."""
    tasks, chain = [], []
    for task in range(count):
        parameters, bound, body = [], [], []
        for number, (writer, reader, kind) in enumerate(streams):
            if task == writer:
                parameters.append(f"tapa::ostream<{kind}>& w{number}")
                body.append(f"w{number} << 1;")
                bound.append(f"s{number}")
            if task == reader:
                parameters.append(f"tapa::istream<{kind}>& r{number}")
                body.append(f"r{number}.read();")
                bound.append(f"s{number}")
        tasks.append(f"void T{task}({', '.join(parameters)}) {{ {' '.join(body)} }}")
        chain.append(f".invoke({', '.join([f'T{task}', *bound])})")
    declared = "".join(f"tapa::stream<{kind}> s{number}; " for number, (_, _, kind) in enumerate(streams))
    return "\n".join(tasks) + f"\nvoid T() {{ {declared}tapa::task(){''.join(chain)}; }}\n"


def groups_of(count, streams):
    """The group of each task: two tasks that reach each other are in one; groups are numbered by their first task."""
    reaches = [[i == j for j in range(count)] for i in range(count)]
    for writer, reader, _ in streams:
        reaches[writer][reader] = True
    for k, i, j in itertools.product(range(count), repeat=3):
        reaches[i][j] = reaches[i][j] or reaches[i][k] and reaches[k][j]
    group, first = [], []
    for i in range(count):
        known = [g for g, j in enumerate(first) if reaches[i][j] and reaches[j][i]]
        group.append(known[0] if known else len(first))
        if not known:
            first.append(i)
    return group, first


class Case:
    """A program and a device for it, made at random; `version` 1 or 2."""

    def __init__(self, seed):
        some = random.Random(seed)
        self.count = some.randint(1, 5)
        ends = range(self.count)
        self.streams = [(some.choice(ends), some.choice(ends), some.choice(list(TYPES))) for _ in range(some.randint(0, 6))]
        self.group, self.first = groups_of(self.count, self.streams)
        self.rows, self.cols = some.choice([(1, 1), (1, 2), (2, 1), (2, 2), (3, 1), (1, 4)])
        self.slots = self.rows * self.cols
        self.version = some.choice([1, 2])
        self.percent = some.choice([70, 100, 35])
        self.capacity = [[some.choice([10, 20, 40]), 40, 40, 40, 40] for _ in range(self.slots)]
        self.uses = [[some.randint(0, 9), some.randint(0, 9), 1, 0, 2] for _ in ends]
        self.levels_rows = [some.randint(0, 4) for _ in range(self.rows - 1)]
        self.levels_cols = [some.randint(0, 4) for _ in range(self.cols - 1)]
        self.forbidden = set()
        if self.version == 1:
            level = some.randint(0, 3)
            self.levels_rows, self.levels_cols = [level] * (self.rows - 1), [level] * (self.cols - 1)
        elif self.slots > 1 and some.random() < 0.4:
            self.forbidden = {some.randrange(self.slots)}
        self.pins = {}
        if some.random() < 0.4:
            open_slots = [slot for slot in range(self.slots) if slot not in self.forbidden]
            self.pins = {self.group[some.choice(ends)]: some.choice(open_slots)}

    def device(self):
        def amounts(five):
            return dict(zip(KINDS, five))

        file = {"rows": self.rows, "cols": self.cols, "percent": self.percent, "slots": [amounts(five) for five in self.capacity]}
        file["tasks"] = {f"T{task}": amounts(five) for task, five in enumerate(self.uses)}
        file["pins"] = {f"T{self.first[g]}${self.first[g]}": list(divmod(slot, self.cols)) for g, slot in self.pins.items()}
        if self.version == 1:
            file["levels"] = (self.levels_rows + self.levels_cols + [2])[0]
        else:
            file.update(version=2, levels_rows=self.levels_rows, levels_cols=self.levels_cols)
            file["forbidden"] = [list(divmod(slot, self.cols)) for slot in sorted(self.forbidden)]
        return json.dumps(file)

    def need(self, group):
        return [sum(self.uses[task][kind] for task in range(self.count) if self.group[task] == group) for kind in range(5)]

    def used(self, placed):
        """What the groups placed so far use of each slot."""
        used = [[0] * 5 for _ in range(self.slots)]
        for group, slot in placed.items():
            used[slot] = [a + b for a, b in zip(used[slot], self.need(group))]
        return used

    def fits(self, placed):
        within = all(
            use * 100 <= has * self.percent for five, caps in zip(self.used(placed), self.capacity) for use, has in zip(five, caps)
        )
        return within and all(slot not in self.forbidden and self.pins.get(group, slot) == slot for group, slot in placed.items())

    def distance(self, a, b):
        return abs(a // self.cols - b // self.cols) + abs(a % self.cols - b % self.cols)

    def cost(self, placed):
        at = [placed[group] for group in self.group]
        return sum(TYPES[kind] * self.distance(at[writer], at[reader]) for writer, reader, kind in self.streams)

    def exact(self):
        """The first of the cheapest plans in the order of their lists of slots."""
        best = None
        for slots in itertools.product(range(self.slots), repeat=len(self.first)):
            placed = dict(enumerate(slots))
            if self.fits(placed) and (best is None or self.cost(placed) < self.cost(best)):
                best = placed
        return best

    def first_fit(self):
        """The plan of first fit, or the group that finds no slot."""
        placed = {}
        groups = range(len(self.first))
        for group in [g for g in groups if g in self.pins] + [g for g in groups if g not in self.pins]:
            found = [slot for slot in range(self.slots) if self.fits({**placed, group: slot})]
            if not found:
                return group
            placed[group] = found[0]
        return placed

    def crossed(self, levels, a, b):
        return sum(levels[min(a, b) : max(a, b)])

    def latency(self, a, b):
        rows = self.crossed(self.levels_rows, a // self.cols, b // self.cols)
        return rows + self.crossed(self.levels_cols, a % self.cols, b % self.cols)


class Shaped(Case):
    """A program in a shape, of which each task has a pin, on a device with the longest ways that may be."""

    def __init__(self, shape, order, place, count=16):
        some = random.Random(f"{shape} {order} {place}")
        self.count = count
        self.streams = [(*pair, some.choice(list(TYPES))) for pair in shaped(shape, order, count)]
        self.group, self.first = groups_of(count, self.streams)
        self.rows, self.cols, self.slots = 8, 4, 32
        self.version, self.percent, self.forbidden = 2, 100, set()
        self.capacity = [[count] * 5] * self.slots
        self.uses = [[1] * 5] * count
        self.levels_rows, self.levels_cols = [16] * 7, [16] * 3
        self.pins = dict(enumerate(slots_of(place, count)))


def front_lines(case, placed):
    """The lines of slots and of tasks."""
    for slot, five in enumerate(case.used(placed)):
        yield f"slot {slot // case.cols} {slot % case.cols}: {' '.join(map(str, five))}"
    for task in range(case.count):
        slot = placed[case.group[task]]
        yield f"task T{task}${task}: {slot // case.cols} {slot % case.cols}"


def is_even(groups, ends, latency, balance):
    """One number per group, of which each stream's registers are the difference at its ends."""
    edges = [(a, b, lat + more) for (a, b), lat, more in zip(ends, latency, balance)]
    time = {}
    for start in range(groups):
        reached = [start] if start not in time else []
        time.setdefault(start, 0)
        while reached:
            group = reached.pop()
            for a, b, length in edges:
                for here, there, step in ((a, b, length), (b, a, -length)):
                    if here == group and there not in time:
                        time[there] = time[here] + step
                        reached.append(there)
    return all(time[b] - time[a] == length for a, b, length in edges)


def is_certified(groups, ends, width, latency, balance, flow, sums):
    """The page of arithmetic: the balance is even, the flow keeps at each group what the widths bring there, and both have one value. `ends` has
    the groups of each stream's writer and reader."""
    inner = [a == b for a, b in ends]
    kept = all(sum((f - w) * ((b == g) - (a == g)) for (a, b), f, w in zip(ends, flow, width)) == 0 for g in range(groups))
    registers = sum(w * more for w, more in zip(width, balance))
    dual = sum(lat * (f - w) for lat, f, w in zip(latency, flow, width))
    idle = all(f == 0 and more == 0 for f, more, within in zip(flow, balance, inner) if within)
    return is_even(groups, ends, latency, balance) and kept and idle and registers == dual and sums == (registers, dual)


def check_plan(trial, name, case, said, placed):
    lines = said.out.decode().splitlines()
    front = list(front_lines(case, placed))
    streams = [line.split() for line in lines[len(front) : -3]]
    last = [line.split() for line in lines[-3:]]
    at = [placed[group] for group in case.group]
    latency = [case.latency(at[writer], at[reader]) for writer, reader, _ in case.streams]
    shown = [
        f"stream s{number}: width {TYPES[kind]} latency {lat}".split()
        for number, ((_, _, kind), lat) in enumerate(zip(case.streams, latency))
    ]
    holds = said.status == 0 and lines[: len(front)] == front and [words[:6] for words in streams] == shown
    holds = holds and [words[0] for words in last] == ["cost", "registers", "dual"] and int(last[0][1]) == case.cost(placed)
    if holds:
        balance, flow = ([int(words[at]) for words in streams] for at in (7, 9))
        width = [TYPES[kind] for _, _, kind in case.streams]
        ends = [(case.group[writer], case.group[reader]) for writer, reader, _ in case.streams]
        holds = is_certified(len(case.first), ends, width, latency, balance, flow, (int(last[1][1]), int(last[2][1])))
    trial.check(name, holds, f"   {said}\n   wanted: {front}")


def check_none(trial, name, said, line):
    trial.check(name, (said.status, said.out, said.err) == (4, b"", line.encode()), f"   wanted: {line}   got: {said}")


@each(range(GRAPHS))
def try_case(trial, seed):
    case = Case(seed)
    trial.put("p.cpp", source_of(case.count, case.streams))
    trial.put("d.json", case.device())
    for mode, found in (("exact", case.exact()), ("fit", case.first_fit())):
        said = trial.run(["plan", "p.cpp", "T", "d.json", "--plan", mode])
        name = f"plan {mode} of graph {seed}"
        if isinstance(found, dict):
            check_plan(trial, name, case, said, found)
        elif mode == "exact":
            check_none(trial, name, said, "tapa: no plan within capacity\n")
        else:
            check_none(trial, name, said, f"tapa: no room for T{case.first[found]}${case.first[found]}\n")


@each(lambda: itertools.product(SHAPES, ORDERS, PLACES))
def try_shape(trial, shape, order, place):
    case = Shaped(shape, order, place)
    trial.put("p.cpp", source_of(case.count, case.streams))
    trial.put("d.json", case.device())
    check_plan(trial, f"plan of {shape}, streams {order}, tasks {place}", case, trial.run(["plan", "p.cpp", "T", "d.json"]), case.pins)


def check_device(trial, row):
    """`CODE KEY `device file``, or `ok` where it has no fault; a key may be empty."""
    told = row.partition(" `")[0]
    _, (given,) = parts(row)
    trial.put("d.json", bytes_of(given))
    said = trial.run(["plan", "p.cpp", "T", "d.json"])
    if told == "ok":
        trial.check(row, said.status in (0, 4), f"   {said}")
    else:
        trial.check(row, (said.status, said.out, said.err) == (3, b"", f"tapa: d.json: {told}\n".encode()), f"   {said}")


def try_devices(trial):
    trial.put("p.cpp", read("tests/cases/devices/chain.cpp"))
    kind, rows = table("tests/cases/devices/faults.rows")
    trial.check("the table of device files", kind == "fault" and len(rows) > 250)
    for row in rows:
        check_device(trial, row)
