#!/usr/bin/env python3
"""Tries and measures placements of designs of real size: families/ has the designs, chips.py their devices. It stands outside of the gate.

    tests/measure/plans/run.py PROGRAM check [NAME ..]      each design runs to its end with what Python computes; its placements are taken by
                                                            `plan` and `build`, and `cosim` carries the same; exact's cost where it can plan
    tests/measure/plans/run.py PROGRAM random COUNT         random devices for the designs that exact can plan, beside exact
    tests/measure/plans/run.py PROGRAM table SECONDS [NAME ..]  what each mode costs on the U250 in two orders of the invokes, and what the attempts of
                                                            place.py find within 1, 10, 60 and SECONDS seconds of one processor
    tests/measure/plans/run.py PROGRAM write FOLDER [NAME ..]   writes sources, data and device files

The status is 1 where something is wrong.
"""
import json
import os
import random
import subprocess
import sys
import tempfile
import time
from pathlib import Path

sys.dont_write_bytecode = True
from families import DESIGNS  # noqa: E402
from chips import PARTS, ROOT, device_of  # noqa: E402
from vechaqir import script  # noqa: E402
from vechaqir.host import device as devices, estimate, plan as plans, program, report, slot_groups  # noqa: E402
from vechaqir.place import exact, levels, placement  # noqa: E402

# The most plans that exact looks at, and the orders of invokes that are tried.
MOST, ORDERS = 4_194_304, (0, 1)
ATTEMPTS = 6
# The seconds of the table's columns, beside those that are asked for.
SECONDS = (1, 10, 60)


class Suite:
    """A program, a folder for files, and how many faults were found."""

    def __init__(self, path, folder):
        self.program, self.folder, self.faults = program.Program(os.path.abspath(path), False), folder, 0

    def put(self, name, text):
        path = os.path.join(self.folder, name)
        Path(path).write_text(text, encoding="utf-8")
        return path

    def check(self, name, holds, told=""):
        self.faults += not holds
        if not holds:
            print(f"FAILED {name} {told}", flush=True)

    def cost(self, source, device, mode="fit"):
        """What a plan costs and how many registers it takes, by a mode; None where it gives none. And the seconds of the call."""
        begun = time.monotonic()
        answer = self.program.call(["plan", source, "Top", device, "--plan", mode])
        plan = plans.parse(answer.out.decode()) if answer.status == 0 else None
        return plan, time.monotonic() - begun


class Prepared:
    """A design's source in an order of its invokes, and what the program says of it."""

    def __init__(self, suite, name, order=0):
        self.name, self.design = name, DESIGNS[name]()
        self.source = suite.put(f"{name.replace(' ', '_')}_{order}.cpp", self.design.source(order))
        self.found = estimate.estimate(suite.program, self.source, "Top")
        self.links = slot_groups.links(self.source, "Top", self.found.labels, self.found.widths)
        self.groups = slot_groups.groups(self.found.labels, self.links)

    def device(self, part):
        return device_of(part, self.found, len(self.groups))


def placed(suite, source, device, *words):
    """What place.py answers, and the path of a file with its output."""
    known = dict(os.environ, TAPA=suite.program.path)
    ran = subprocess.run([sys.executable, os.path.join(ROOT, "tools/place.py"), source, "Top", device, *words], env=known, capture_output=True, text=True, check=False)
    return ran, suite.put("pinned.json", ran.stdout)


def check_run(suite, prepared):
    """Runs a design; gives its report and the path of its data."""
    data = suite.put("data.json", json.dumps(prepared.design.data))
    answer = suite.program.call(["run", prepared.source, "Top", data])
    told = report.parse(answer.out.decode(), answer.err.decode())
    wanted = {name: [cell % 2**32 for cell in cells] for name, cells in prepared.design.wanted.items()}
    got = {name: told.memories.get(name) for name in wanted}
    suite.check(f"{prepared.name}: run", answer.status == 0 and got == wanted, f"{answer.err.decode()} {got}")
    return answer, data


def check_placement(suite, prepared, part, ran, data):
    """A placement through `plan`, `build` and `cosim`; gives its cost."""
    name, device = f"{prepared.name} on {part}", suite.put("device.json", prepared.device(part).text())
    answered, pinned = placed(suite, prepared.source, device, "--attempts", str(ATTEMPTS))
    suite.check(f"{name}: place.py", answered.returncode == 0, answered.stderr)
    plan, _ = suite.cost(prepared.source, pinned, "exact")
    suite.check(f"{name}: plan of the pins", plan is not None and f"cost {plan.cost}," in answered.stderr, answered.stderr)
    if len(prepared.device(part).slots) ** len(prepared.groups) <= MOST:
        least, _ = suite.cost(prepared.source, device, "exact")
        suite.check(f"{name}: the cost of exact", plan and least and plan.cost == least.cost, f"{plan and plan.cost} {least and least.cost}")
    built = suite.program.call(["build", prepared.source, "Top", "--device", pinned])
    simulated = suite.program.call(["cosim", suite.put("pinned.v", built.out.decode()), data])
    same = simulated.status == 0 and simulated.out.splitlines()[:-1] == ran.out.splitlines()[:-1]
    suite.check(f"{name}: cosim carries what run prints", same, simulated.err.decode())
    return plan.cost if plan else None


def check(suite, names):
    for name in names:
        prepared = [Prepared(suite, name, order) for order in ORDERS]
        ran, data = check_run(suite, prepared[0])
        for part in PARTS:
            costs = [check_placement(suite, prepared[0], part, ran, data)]
            print(f"{name} on {part}: {len(prepared[0].found.labels)} tasks, cost {costs[0]}", flush=True)


def random_device(prepared, some):
    """A device on which exact can plan a design: a few slots of random sizes that hold from 1.1 to 2 times what the tasks use."""
    grids = [(rows, cols) for rows in range(1, 5) for cols in range(1, 4) if 1 < (rows * cols) ** len(prepared.groups) <= MOST]
    rows, cols = some.choice(grids)
    shares = [some.uniform(0.6, 1.4) for _ in range(rows * cols)]
    uses = prepared.found.uses(prepared.found.labels)
    spare = some.uniform(1.1, 2.0)
    slots = [[int(use * spare * share / sum(shares)) + 1 for use in uses] for share in shares]
    return devices.Device(rows, cols, slots, 2, [some.randrange(5) for _ in range(rows - 1)], [some.randrange(5) for _ in range(cols - 1)], percent=100)


def check_random(suite, count):
    """Random devices for each design that exact can plan on two slots at least."""
    for name in DESIGNS:
        prepared = Prepared(suite, name)
        if 2 ** len(prepared.groups) > MOST:
            continue
        for seed in range(count):
            device = suite.put("device.json", random_device(prepared, random.Random(f"{name} {seed}")).text())
            least, _ = suite.cost(prepared.source, device, "exact")
            answered, pinned = placed(suite, prepared.source, device, "--attempts", str(ATTEMPTS))
            plan = suite.cost(prepared.source, pinned)[0] if answered.returncode == 0 else None
            suite.check(f"{name} on random device {seed}", (plan and plan.cost) == (least and least.cost), f"{plan and plan.cost} {least and least.cost} {answered.stderr}")
        print(f"{name}: {count} random devices", flush=True)


def searched(request, most):
    """What the attempts of place.py find within 1, 10, 60 and `most` seconds of one processor, with how many were over by then; the first counts in any
    time. And the board."""
    graph, board = placement.problem_of(request, False)
    limits = [limit for limit in SECONDS if limit < most] + [most]
    best, made, marks, begun = None, 0, {}, time.process_time()
    while limits:
        layout = levels.attempt(graph, board, 1, made)
        layout = layout if made else exact.search(graph, board, layout).found
        while made and limits and time.process_time() - begun > limits[0]:
            marks[limits.pop(0)] = best, made
        best = min((it for it in (best, layout) if it), key=lambda it: it.cost, default=None)
        made += 1
    return marks, board


def row(suite, name, part, most):
    """A line of the table: tasks, streams, cost and seconds of each mode in both orders of the invokes, whether both orders are one graph for place.py,
    what its attempts find by and by, and the registers of the last."""
    prepared = [Prepared(suite, name, order) for order in ORDERS]
    known = prepared[0].device(part)
    device = suite.put("device.json", known.text())
    cells = [name, part, len(prepared[0].found.labels), len(prepared[0].links)]
    for mode in ("fit", "split", "exact"):
        for one in prepared:
            plan, took = suite.cost(one.source, device, mode)
            cells.append(f"{mode} {plan.cost}, {placement.registers(plan)}, {took:.2f} s" if plan else f"{mode} none")
    requests = [placement.read_request(suite.program, one.source, "Top", known) for one in prepared]
    cells.append("one graph" if placement.problem_of(requests[0], False) == placement.problem_of(requests[1], False) else "two graphs")
    marks, board = searched(requests[0], most)
    cells += [f"{limit} s: {best.cost if best else 'none'} in {made}" for limit, (best, made) in marks.items()]
    best = marks[most][0]
    if best:
        pinned = suite.put("pinned.json", known.text(placement.pins_of(requests[0], [board.slots[slot] for slot in best.at])))
        plan = suite.cost(prepared[0].source, pinned)[0]
        cells.append(f"{plan.cost}, {placement.registers(plan)} registers")
    return cells


def table(suite, most, names):
    for name in names:
        print("| " + " | ".join(map(str, row(suite, name, "u250", most))) + " |", flush=True)


def write(suite, names):
    os.makedirs(suite.folder, exist_ok=True)
    for name in names:
        prepared = Prepared(suite, name)
        front = name.replace(" ", "_")
        suite.put(f"{front}_data.json", json.dumps(prepared.design.data))
        for part in PARTS:
            suite.put(f"{front}_{part}.json", prepared.device(part).text())


@script.words(*script.PROGRAM)
@script.word("what", metavar="WHAT", choices=("check", "random", "table", "write"), help="check, random, table or write")
@script.word("words", metavar="COUNT|SECONDS|FOLDER|NAME", nargs="*", help="its words; NAME is the name of a design, all if none is given")
def main(asked):
    first, names = (None, asked.words) if asked.what == "check" else (asked.words[0] if asked.words else "", asked.words[1:])
    unknown = [name for name in names if name not in DESIGNS]
    if unknown:
        raise script.Usage(f"no design {unknown[0]}: {', '.join(DESIGNS)}")
    if first == "" or asked.what in ("random", "table") and not first.isdecimal():
        raise script.Usage(f"{asked.what} needs a {'folder' if asked.what == 'write' else 'number'}")
    with tempfile.TemporaryDirectory(prefix="tapa-plans-") as folder:
        suite = Suite(asked.program, first if asked.what == "write" else folder)
        if asked.what == "random":
            check_random(suite, int(first))
        elif asked.what == "table":
            table(suite, int(first), names or list(DESIGNS))
        else:
            (check if asked.what == "check" else write)(suite, names or list(DESIGNS))
        print(f"{suite.faults} faults")
    return 1 if suite.faults else 0


if __name__ == "__main__":
    script.call(main)
