"""`tools/place.py` on three examples, on random programs and devices compared with `--plan exact`, and on a square of tasks on a full device: `plan`, `build` and `cosim` accept
its pins. The square has two orders of invokes. A device file with a bit changed, and devices that are full, too small or too small for the groups. The search
alone on twenty small programs."""
import itertools
import json
import os
import random
import re

from runner.groups import pictures
from runner.groups.placing import MULTIPLIES, grid_of
from runner.groups.plans import Case, source_of
from runner.trial import ROOT, each, read
from vechaqir.host import device as devices, program
from vechaqir.place import exact as place_exact, graph as place_graph, levels, placement

# Random devices of small programs that the gate tries; tests/measure/plans/run.py tries more.
DEVICES = 12
# Random programs of a few tasks on which the search alone is tried, without the look through all layouts; and the attempts at each.
SEARCHED, ATTEMPTS = 20, 3
# Bytes of a device file that are made others, one at a time.
FLIPS = 12
# Nodes and slots at random of which all layouts are looked through.
PACKED = 200

# Designs with their files in the repository, a device, and the words of place.py.
EXAMPLES = [tuple(it) for it in json.loads(read("tests/cases/devices/placed.json"))]

# Devices for tasks of 192 LUT in three groups, what is answered, and parts of what is told: slots that they fill to 95 percent, slots with a LUT less than all
# need, slots with enough of them but not for these groups, slots of which none is open, and tasks that are as large as can be.
SMALL = json.loads(read("tests/cases/devices/small.json"))


def grid_source(side, order):
    """A square of tasks that add what comes from the left and from above; `order` mixes the invokes."""
    pe = "void Pe(tapa::istream<int>& l, tapa::istream<int>& u, tapa::ostream<int>& r, tapa::ostream<int>& d) { int a = l.read(); int b = u.read(); r << a + b; d << a - b; }"
    ends = "void Feed(tapa::ostream<int>& q) { q << 3; } void Drain(tapa::istream<int>& q) { q.read(); }"
    across = "".join(f"tapa::streams<int, {side + 1}> h{at}, v{at}; " for at in range(side))
    invokes = [f".invoke(Pe, h{row}[{col}], v{col}[{row}], h{row}[{col + 1}], v{col}[{row + 1}])" for row in range(side) for col in range(side)]
    invokes += [f".invoke(Feed, {way}{at}[0])" for at in range(side) for way in "hv"]
    invokes += [f".invoke(Drain, {way}{at}[{side}])" for at in range(side) for way in "hv"]
    random.Random(order).shuffle(invokes)
    return f"{pe}\n{ends}\nvoid T() {{ {across}tapa::task(){''.join(invokes)}; }}\n"


def lanes_source(order):
    """Three lanes alike, each a task of two others, between one task and the next; `order` mixes the invokes of both levels."""
    tasks = "void P(tapa::ostream<int>& a, tapa::ostream<int>& b, tapa::ostream<int>& c) { a << 1; b << 2; c << 3; }"
    tasks += "void M(tapa::istream<int>& q, tapa::ostream<int>& r) { r << q.read(); } void N(tapa::istream<int>& q, tapa::ostream<int>& r) { r << q.read() * 3; }"
    tasks += "void C(tapa::istream<int>& a, tapa::istream<int>& b, tapa::istream<int>& c) { a.read(); b.read(); c.read(); }"
    some = random.Random(order)
    inner, outer = ["M, q, m", "N, m, r"], ["P, x[0], x[1], x[2]", *(f"Lane, x[{at}], y[{at}]" for at in range(3)), "C, y[0], y[1], y[2]"]
    some.shuffle(inner)
    some.shuffle(outer)
    inner, outer = ("".join(f".invoke({invoke})" for invoke in invokes) for invokes in (inner, outer))
    lane = f"void Lane(tapa::istream<int>& q, tapa::ostream<int>& r) {{ tapa::stream<int> m; tapa::task(){inner}; }}"
    return f"{tasks}\n{lane}\nvoid T() {{ tapa::streams<int, 3> x, y; tapa::task(){outer}; }}\n"


class Small:
    """A program of six to nine tasks at random whose streams make no cycle, and a device of two to four slots for it, with a pin now and then."""

    def __init__(self, seed):
        some = random.Random(f"small {seed}")
        self.count, self.rows, self.cols = some.randint(6, 9), *some.choice([(1, 2), (2, 1), (3, 1), (2, 2)])
        streams = [(*sorted(some.sample(range(self.count), 2)), some.choice(["bool", "int", "uint64_t"])) for _ in range(some.randint(6, 16))]
        self.source = source_of(self.count, streams)
        slots, uses = self.rows * self.cols, [[some.randint(5, 25), some.randint(5, 25)] for _ in range(self.count)]
        rooms = [[int(sum(use[kind] for use in uses) * some.uniform(1.2, 2.2) / slots) + 8 for kind in (0, 1)] for _ in range(slots)]
        pins = {f"T{task}${task}": list(divmod(some.randrange(slots), self.cols)) for task in range(self.count) if some.random() < 0.15}
        tasks = {f"T{task}": dict(zip(devices.RESOURCES, use)) for task, use in enumerate(uses)}
        self.device = grid_of({"slots": rooms, "tasks": tasks, "pins": pins}, rows=self.rows)


def placed(trial, source, top, device, *words):
    """What place.py answers, and the path of a file with its output."""
    answered = trial.tool("place.py", source, top, device, *words)
    return answered, trial.put("pinned.json", answered[1])


def cost_of(said):
    """The cost that `plan` prints, None where it printed no plan."""
    lines = [line.split() for line in said.out.decode().splitlines() if line.startswith("cost ")]
    return int(lines[0][1]) if lines and said.status == 0 else None


def check_carried(trial, name, source, top, pinned, data):
    """`plan` takes the pins in each mode, and the circuit for them carries what `run` prints."""
    costs = [cost_of(trial.run(["plan", source, top, pinned, "--plan", mode])) for mode in ("fit", "exact")]
    trial.check(f"{name}: plan takes the pins", costs[0] is not None and costs[0] == costs[1], f"   {costs}")
    built = trial.run(["build", source, top, "--device", pinned])
    ran = trial.run(["run", source, top, *data])
    simulated = trial.run(["cosim", trial.put("pinned.v", built.out), *data])
    same = built.status == 0 and simulated.status == 0 and simulated.out.splitlines()[:-1] == ran.out.splitlines()[:-1]
    trial.check(f"{name}: the circuit carries what run prints", same, f"   {simulated}")


@each(EXAMPLES)
def try_example(trial, name, top, given, words):
    source = os.path.join(ROOT, f"examples/{name}.cpp")
    data = [path for path in [source[:-4] + ".json"] if os.path.exists(path)]
    device = trial.put("device.json", grid_of(given, rows=len(given["slots"]) // 2))
    (status, _, err), pinned = placed(trial, source, top, device, "--attempts", "3", "--seed", "7", *words)
    trial.check(f"{name} is placed", status == 0 and "Traceback" not in err, f"   {err}")
    exact = cost_of(trial.run(["plan", source, top, device, "--plan", "exact"]))
    trial.check(f"{name} is placed at the cost of exact", exact is not None and f"cost {exact}," in err or "--levels" in words, f"   {exact} {err}")
    check_carried(trial, name, source, top, pinned, data)
    kept, before = json.loads(read(pinned)), json.loads(read(device))
    pins = before.get("pins", {})
    holds = {**kept, "pins": pins} == {**before, "pins": pins} and pins.items() <= kept["pins"].items()
    trial.check(f"{name}: the device's own keys and pins are kept", holds, f"   {kept}")


@each(range(DEVICES))
def try_random(trial, seed):
    """A random program and device: a placement of exact's cost, or the word that none fits."""
    case = Case(seed)
    source, device = trial.put("p.cpp", source_of(case.count, case.streams)), trial.put("d.json", case.device())
    exact = trial.run(["plan", source, "T", device, "--plan", "exact"])
    (status, _, err), pinned = placed(trial, source, "T", device, "--attempts", "1")
    trial.check(f"placement of random device {seed}", status == exact.status and ("cost" not in err or f"cost {cost_of(exact)}," in err), f"   {exact}\n   {status} {err}")
    if exact.status == 0:
        trial.check(f"the program's cost on random device {seed}", cost_of(trial.run(["plan", source, "T", pinned])) == cost_of(exact))


@each(range(SEARCHED))
def try_search(trial, seed):
    """The search alone, on a small program and device at random: no slot is overfull, pins are kept, the cost is what the layout costs, and it is exact's."""
    small = Small(seed)
    source, path = trial.put("p.cpp", small.source), trial.put("d.json", small.device)
    exact = trial.run(["plan", source, "T", path, "--plan", "exact"])
    request = placement.read_request(program.Program(trial.program, False), source, "T", devices.parse(small.device))
    graph, board = placement.problem_of(request, False)
    found = [it for it in (levels.attempt(graph, board, seed, number) for number in range(ATTEMPTS)) if it]
    for it in found:
        pins = placement.pins_of(request, [board.slots[slot] for slot in it.at])
        own = request.device.pins.items() <= pins.items() and all(slot in (None, at) for slot, at in zip(graph.fixed, it.at))
        said = trial.run(["plan", source, "T", trial.put("pinned.json", request.device.text(pins))])
        trial.check(f"small program {seed}: the program takes what the search found", own and cost_of(said) == it.cost == graph.cost(it.at, board), f"   {it} {said}")
    least = min((it.cost for it in found), default=None)
    trial.check(f"small program {seed}: the search finds the cost of exact", least == cost_of(exact), f"   {least} {exact}")


def try_nested(trial):
    """The order of invokes does not change what is searched, of a square of tasks and of lanes that are tasks of tasks."""
    called, device = program.Program(trial.program, False), devices.parse(grid_of({"slots": [[300, 900]] * 4}, rows=2))
    for name, written in (("a square", lambda order: grid_source(3, order)), ("lanes", lanes_source)):
        problems = [placement.problem_of(placement.read_request(called, trial.put("mixed.cpp", written(order)), "T", device), False) for order in range(5)]
        trial.check(f"{name}: one graph in five orders of invokes", all(problem == problems[0] for problem in problems), f"   {problems}")


def try_orders(trial):
    """A square of 36 tasks and 24 ends on four slots that are nearly full: the order of invokes, the workers and a second call change nothing, and a device without room
    is told as such."""
    uses = json.loads(trial.tool("estimate.py", trial.put("grid.cpp", grid_source(6, 1)), "T", "--json")[1])["all"]["LUT"]
    device = trial.put("four.json", grid_of({"slots": [[uses * 100 // 95 // 4 + 1, 90000]] * 4}, rows=2))
    costs = []
    for order in (1, 2):
        source = trial.put("grid.cpp", grid_source(6, order))
        (status, out, err), pinned = placed(trial, source, "T", device, "--attempts", "4", "--workers", "2")
        costs.append(cost_of(trial.run(["plan", source, "T", pinned])))
        trial.check(f"a full device holds a placement, invokes in order {order}", status == 0 and costs[-1] is not None, f"   {err}")
    check_carried(trial, "a full device", source, "T", pinned, [])
    again = placed(trial, source, "T", device, "--attempts", "4", "--workers", "1")[0]
    trial.check("one worker finds what two find", again == (status, out, err), f"   {again[2]} {err}")
    trial.check("the order of invokes does not change the cost", all(costs) and len(set(costs)) == 1, f"   {costs}")
    small = trial.put("small.json", grid_of({"slots": [[uses // 4 - 1, 90000]] * 4}, rows=2))
    status, out, err = placed(trial, source, "T", small, "--attempts", "1")[0]
    trial.check("a device without room is told as such", (status, out) == (4, "") and f"all tasks together need {uses} LUT" in err, f"   {err}")


def try_flipped(trial):
    """A device file in which a bit of one byte is another: the program's own refusal, or an answer as on any device."""
    source, some = trial.put("multiplies.cpp", MULTIPLIES), random.Random(3)
    text = grid_of({"slots": [[190, 900, 0, 6]] * 4, "pins": {"C$1": [1, 0]}, "forbidden": [[0, 1]], "tasks": {"C": {"LUT": 30}}}, rows=2).encode()
    for at in [some.randrange(len(text)) for _ in range(FLIPS)]:
        flipped = bytearray(text)
        flipped[at] ^= 1 << some.randrange(8)
        device = trial.put("flipped.json", bytes(flipped))
        said = trial.run(["plan", source, "T", device])
        (status, out, err), _ = placed(trial, source, "T", device, "--attempts", "1")
        own = (status, out, err) == (said.status, "", said.err.decode())
        is_answer = status in (0, 4) and bool(out) == (status == 0) and err.startswith("tools/place.py: ") and said.status in (status, 4)
        trial.check(f"a device with another byte at {at}", is_answer if said.status in (0, 4) else own, f"   {bytes(flipped)} {said} {status} {err}")


def try_small(trial):
    """A small program on the devices of SMALL: its answer and that of `--plan exact`, and what is told."""
    source = trial.put("multiplies.cpp", MULTIPLIES)
    for given, status, words in SMALL:
        device = trial.put("small.json", grid_of(given))
        exact = trial.run(["plan", source, "T", device, "--plan", "exact"])
        (told, out, err), pinned = placed(trial, source, "T", device, "--attempts", "2")
        holds = (told, exact.status) == (status, status) and all(part in err for part in words)
        taken = cost_of(trial.run(["plan", source, "T", pinned])) == cost_of(exact) if out else status == 4
        trial.check(f"a small program on {given['slots']}", holds and taken, f"   {exact} {told} {err}")


def try_packing(trial):
    """Whether no layout fits, beside all layouts; and on slots of which each holds one of nine tasks alike, which are too many to look through."""
    some, wrong = random.Random(5), []
    for _ in range(PACKED):
        count, slots, kinds = some.randint(1, 5), some.randint(1, 3), some.randint(0, 2)
        needs, rooms = ([[some.randint(0, top) for _ in range(kinds)] for _ in range(many)] for many, top in ((count, 9), (slots, 20)))
        fixed = [some.randrange(slots) if some.random() < 0.2 else None for _ in range(count)]
        layouts = [at for at in itertools.product(range(slots), repeat=count) if all(pin in (None, slot) for pin, slot in zip(fixed, at))]
        fits = any(all(sum(needs[node][kind] for node in range(count) if at[node] == slot) <= rooms[slot][kind] for slot in range(slots) for kind in range(kinds)) for at in layouts)
        graph, board = place_graph.Graph(needs, [[] for _ in needs], fixed), place_graph.Board(list(range(slots)), rooms, [[0] * slots for _ in rooms])
        if place_exact.cannot_fit(graph, board) == fits:
            wrong.append((needs, rooms, fixed))
    trial.check("what cannot fit, beside all layouts", not wrong, f"   {wrong[:3]}")
    source = trial.put("nine.cpp", source_of(9, [(task, task + 1, "int") for task in range(8)]))
    device = trial.put("eight.json", grid_of({"slots": [[100]] * 8, "tasks": {f"T{task}": {"LUT": 60} for task in range(9)}}, rows=2))
    (status, out, err), _ = placed(trial, source, "T", device, "--attempts", "1")
    told = "tools/place.py: no placement fits\ntools/place.py: all tasks together need 540 LUT of the 800 of all slots (at 100 percent)\n"
    trial.check_equal("nine tasks on eight slots", (status, out, err), (4, "", told))


def try_drawings(trial):
    """Pictures of a plan with many tasks and of one with few; the bits of the bundles are the cost. What is no plan or no device is told in a line."""
    source, device = trial.put("grid.cpp", grid_source(9, 1)), trial.put("nine.json", grid_of({"slots": [[2400, 90000]] * 9}, rows=3))
    said = trial.run(["plan", source, "T", device])
    path = trial.put("p.plan", said.out)
    _, drawn, err = trial.tool("floorplan.py", path, device, source, "T")
    pictures.try_labels(trial, "a plan of 117 tasks", drawn)
    bits = sum(int(it) for it in re.findall(r">(\d+) bits<", drawn))
    trial.check("the bundles have the bits of the cost", bits == cost_of(said) and drawn.count("<title>") == 117, f"   {bits} {said.out[-60:]} {err}")
    few = trial.run(["plan", "examples/systolic.cpp", "Product", "examples/devices/u250.json", "--plan", "fit"], ROOT)
    _, drawn, _ = trial.tool("floorplan.py", trial.put("few.plan", few.out), "examples/devices/u250.json")
    pictures.try_labels(trial, "a plan on eight slots", drawn)
    for words in ([source, device], [path, source], [path, "examples/devices/u250.json"], ["missing.plan", device], [path, device, source, "U"]):
        trial.check_that(f"floorplan.py {' '.join(map(os.path.basename, words))}", trial.tool("floorplan.py", *words), lambda status, out, err: (status, out, err.count("\n")) == (1, "", 1))
