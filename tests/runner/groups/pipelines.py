"""Circuits of each example for two devices with small slots, with and without a balance: they carry what the run shows, `done` comes within its bound, and the certificate of
each plan holds."""
import json
import os
import re

from runner.groups.circuits import ENOUGH, agree, is_front, parts_of, with_waits
from runner.groups.examples import names
from runner.groups.plans import groups_of, is_certified
from runner.trial import ROOT, data_of, each, first_words, read

DEVICES = {
    "a grid": {"rows": 2, "cols": 2, "levels": 3},
    "three dies": {"version": 2, "rows": 3, "cols": 1, "levels_rows": [4, 1]},
}
# The modes that are tried, in this order: `exact` where there are not too many plans.
MODES = {"a grid": ["fit"], "three dies": ["exact", "fit"]}


def device_of(about, tasks, capacity):
    """The device with so many tasks in each slot."""
    shape = DEVICES[about]
    slots = [{"LUT": capacity}] * (shape["rows"] * shape["cols"])
    return json.dumps({**shape, "percent": 100, "slots": slots, "tasks": {task: {"LUT": 1} for task in tasks}})


def ends_of(text):
    """The instances of a circuit's top module by label, and for each stream the number of its writer and of its reader."""
    top = text[text.rindex("module t_") :]
    labels, nets = [], []
    for label, joined in re.findall(r"\bt_\S+\s+t_(\S+)\s*\(([^;]*)\)\s*;", top):
        labels.append(label)
        nets.append(set(re.findall(r"\(\s*([^()\s]+)\s*\)", joined)))
    return labels, lambda net: next(number for number, joined in enumerate(nets) if net in joined)


def numbers_of(plan):
    """The streams of a plan with their four numbers, and its last lines' numbers."""
    lines = [line.rpartition(": ") if line.startswith("stream") else ("", "", line) for line in plan.splitlines()]
    streams = {front[len("stream ") :]: [int(word) for word in facts.split()[1::2]] for front, _, facts in lines if front}
    return streams, [int(line.split()[1]) for _, _, line in lines[-3:]]


def holds_certificate(plan, text):
    streams, (_, registers, dual) = numbers_of(plan)
    labels, holder = ends_of(text)
    between = [(holder(f"s_{name}_wr"), holder(f"s_{name}_take"), None) for name in streams]
    group, first = groups_of(len(labels), between)
    ends = [(group[writer], group[reader]) for writer, reader, _ in between]
    width, latency, balance, flow = (list(row) for row in zip(*streams.values())) if streams else ([], [], [], [])
    return is_certified(len(first), ends, width, latency, balance, flow, (registers, dual))


def latest(ran, plan, balanced, data):
    """The cycle by which `done` is raised: the ticks, the greatest latency, and the cycles in which a memory is not ready."""
    ticks = int(parts_of(ran.out)[1].split()[1])
    streams, _ = numbers_of(plan)
    late = max((latency + (balance if balanced else 0) for _, latency, balance, _ in streams.values()), default=0)
    return (ticks + 2) * (2 * late + 4) + sum(ready.count(0) for ready in data.get("waits", {}).values())


def try_text(trial, name, ran, data, plan, balanced, has_detached):
    """The text of an example, simulated on some data, beside its run. One that stops goes on where a pipe holds more than the declared depth."""
    trial.put("d.json", json.dumps(data))
    said = trial.run(["cosim", "x.v", "d.json", *([] if ran.status == 0 else ["--cycles", ENOUGH])])
    shown, _ = parts_of(ran.out)
    carried, last = parts_of(said.out)
    if ran.status == 0:
        holds = said.status == 0 and agree(shown, carried, has_detached)
        holds = holds and (has_detached or int(last.split()[1]) <= latest(ran, plan, balanced, data))
    else:
        holds = list(shown) == list(carried) and all(is_front(shown[part], carried[part]) for part in shown)
    trial.check(name, holds, f"   run: {ran}   cosim: {said}")


def planned_on(trial, source, top, about, tasks):
    """The plan on the smallest slots that hold the tasks, and its mode."""
    for mode in MODES[about]:
        for capacity in range(1, 100):
            trial.put("device.json", device_of(about, tasks, capacity))
            planned = trial.run(["plan", source, top, "device.json", "--plan", mode])
            if planned.status != 4:
                break
        if planned.status == 0:
            break
    return planned, mode


def try_device(trial, name, words, ran, about, tasks, data):
    source, top = os.path.join(ROOT, words[1]), words[2]
    planned, mode = planned_on(trial, source, top, about, tasks)
    plan = planned.out.decode()
    for balanced in (True, False):
        built = trial.run(["build", source, top, "--device", "device.json", "--plan", mode, *([] if balanced else ["--no-balance"])])
        case = f"{name} on {about}, {'balanced' if balanced else 'not balanced'}"
        whole = (built.status, built.err) == (0, b"") and planned.status == 0
        trial.check(f"{case}, is built", whole and built.out.endswith(b"endmodule\n"), f"   {planned}   {built}")
        if not whole:
            continue
        trial.put("x.v", built.out)
        trial.check(f"{case}, has its certificate", holds_certificate(plan, built.out.decode()), f"   {planned}")
        detached = "detach" in read(words[1])
        try_text(trial, case, ran, data, plan, balanced, detached)
        if data.get("memories"):
            try_text(trial, f"{case}, with memories that are not always ready", ran, with_waits(data, 3), plan, balanced, detached)


@each(lambda: names())
def try_example(trial, name):
    words = ["run", *first_words(f"{name}.cpp")]
    ran = trial.run(words, ROOT)
    if ran.status not in (0, 8):
        return
    tasks = [module[2:] for module in re.findall(r"\bmodule (t_\S+)", trial.run(["build", words[1], words[2]], ROOT).out.decode())[:-1]]
    for about in DEVICES:
        try_device(trial, name, words, ran, about, tasks, data_of(words))
