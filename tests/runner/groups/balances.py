"""The registers on each stream of a circuit for 300 random devices, with and without a balance: they are those that `plan` prints."""
import json
import random
import re

from runner.groups.plans import TYPES, source_of

# Devices made at random, and how many of them at least must ask for registers at borders and for some of a balance, so that the comparison is of something.
DEVICES = 300
LEAST = 100


def some_case(seed):
    """A program without cycles and a device on which each task is pinned to a slot of its own choice."""
    some = random.Random(seed)
    count = some.randint(3, 8)
    streams = [(*sorted(some.sample(range(count), 2)), some.choice(list(TYPES))) for _ in range(some.randint(count, 2 * count))]
    rows, cols = some.choice([(1, 2), (2, 1), (2, 2), (3, 1), (1, 4), (2, 3)])
    slots = [{kind: 100 for kind in ("LUT", "FF", "BRAM", "DSP", "URAM")}] * (rows * cols)
    device = {"rows": rows, "cols": cols, "percent": 100, "slots": slots, "tasks": {f"T{task}": {"LUT": some.randint(1, 9)} for task in range(count)}}
    device["pins"] = {f"T{task}${task}": [some.randrange(rows), some.randrange(cols)] for task in range(count)}
    if some.random() < 0.3:
        device["levels"] = some.randint(1, 4)
    else:
        device.update(version=2, levels_rows=[some.randint(0, 4) for _ in range(rows - 1)], levels_cols=[some.randint(0, 4) for _ in range(cols - 1)])
    return source_of(count, streams), json.dumps(device)


def planned(plan):
    """The width, latency and balance of each stream that `plan` prints."""
    return {name: tuple(map(int, numbers)) for name, *numbers in re.findall(r"^stream (\S+): width (\d+) latency (\d+) balance (\d+) ", plan, re.M)}


def delays(text):
    """What stands in a text for each stream: the width of its channel, and the registers that its tokens pass before they are in the queue."""
    bodies = dict(re.findall(r"^module (\S+) (.*?)^endmodule$", text, re.M | re.S))

    def long(name):
        return len(re.findall(r"^\s*reg .*\btoken ;$", bodies[name], re.M)) + sum(map(long, re.findall(r"^\s*(relay_\S+) \S+ \(", bodies[name], re.M)))

    return {stream: (int(name.split("_")[1]), long(name)) for name, stream in re.findall(r"^\s*(channel_\S+) c_(\S+) \(", text, re.M)}


def try_all(trial):
    crossing = balanced = 0
    for seed in range(DEVICES):
        source, device = some_case(seed)
        trial.put("p.cpp", source)
        trial.put("d.json", device)
        plan = planned(trial.run(["plan", "p.cpp", "T", "d.json"]).out.decode())
        crossing += any(latency for _, latency, _ in plan.values())
        balanced += any(balance for *_, balance in plan.values())
        for words, wanted in (([], lambda latency, balance: latency + balance), (["--no-balance"], lambda latency, _: latency)):
            text = trial.run(["build", "p.cpp", "T", "--device", "d.json", *words]).out.decode()
            told = {name: (width, wanted(latency, balance)) for name, (width, latency, balance) in plan.items()}
            trial.check(f"registers of the circuit on device {seed} {' '.join(words)}", bool(told) and delays(text) == told, f"   plan: {told}   text: {delays(text)}")
    trial.check("devices with registers at borders and in balances", min(crossing, balanced) >= LEAST, f"   {crossing}, {balanced}")
