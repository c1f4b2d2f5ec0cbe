"""Runs that explanations repeat in Python (`tools/vechaqir/machine/untimed.py`), compared with the program: ticks, tokens, cells and the end of each example and of 120 random
networks, and depths that end a deadlock."""
import json
import os
from pathlib import Path

from runner.groups.workers import Network
from runner.trial import ROOT

from vechaqir.explain import depths, replay
from vechaqir.host import data, report
from vechaqir.host.program import Program
from vechaqir.language import source
from vechaqir.machine import untimed

COUNT, SECONDS = 120, 60
# Sources whose top tasks have data beside them, and others of the tests.
FOLDERS = ("examples", "tests/cases/circuits", "tests/measure/cosim_speed")


def sources():
    """Each source with a top task and its data, if those are beside it."""
    for folder in FOLDERS:
        for name in sorted(os.listdir(os.path.join(ROOT, folder))):
            if name.endswith(".cpp"):
                path = os.path.join(ROOT, folder, name)
                read = source.read(path)
                invoked = {invoke.task for task in read.tasks.values() for invoke in task.invokes}
                for top in [it.name for it in read.tasks.values() if it.is_upper and it.name not in invoked]:
                    given = path[:-4] + ".json"
                    yield path, top, given if os.path.exists(given) else None


def outcome_of(path, top, given, most):
    read = source.read(path)
    found = data.read(given) if given else data.Data()
    return untimed.Untimed(read, source.network(read, top), found.scalars, found.memories, is_kept=True).run(most, SECONDS)


def tokens(queue):
    return [report.EOT if it >= queue.mark else it for it in queue.carried]


def compare(trial, name, path, top, given, limit):
    """A run of the program beside one in Python. What streams of detached tasks show is left out, as the program's report leaves it out."""
    said = trial.run(["run", path, top, *([given] if given else []), "--steps", str(limit)], ROOT)
    if said.status not in (0, 7, 8):
        return None
    found = outcome_of(path, top, given, limit)
    if said.status == 7:
        trial.check(f"{name} passes its limit", found.end != "done", f"   {found.end}")
        return found
    told = report.parse(said.out.decode(), said.err.decode())
    network = source.network(source.read(path), top)
    joined = {it.name for it in network.streams if not any(network.instance(end or "").detached for end in (it.writer, it.reader) if network.instance(end or ""))}
    trial.check_equal(f"{name}: its end and its ticks", (found.end, found.ticks), (told.end, told.count))
    trial.check_equal(f"{name}: its tokens", {it: tokens(found.queues[it]) for it in joined}, {it: told.streams[it] for it in joined})
    trial.check_equal(f"{name}: its cells", found.memories, told.memories)
    if told.end == "stopped":
        waiting = {it.label: it.what for it in told.waiting}
        wanted = {untimed.READS: "waits to read", untimed.WRITES: "waits to write", untimed.BAD: "bad token on"}
        trial.check_equal(f"{name}: who waits", {it.instance.label: wanted[it.status] for it in found.waiting()}, waiting)
    return found


def try_sources(trial):
    count = 0
    for path, top, given in sources():
        count += compare(trial, f"{os.path.relpath(path, ROOT)} {top}", path, top, given, 1_000_000) is not None
    trial.check("sources are run", count >= 24, f"   {count}")


def try_networks(trial):
    """Networks made at random; of those that stop the depths that end them, if there are some, which the program confirms."""
    ends = set()
    for seed in range(COUNT):
        network = Network(seed)
        path, given = trial.put("n.cpp", network.source), trial.put("n.json", json.dumps(network.data))
        found = compare(trial, f"network {seed}", path, "T", given, int(network.limit))
        ends.add(found.end if found else "")
        if found and found.end == "stopped" and any(it.status == untimed.WRITES for it in found.waiting()):
            ends.add(try_depths(trial, f"network {seed}", path, given))
    trial.check("networks end in each way, and some by greater depths", ends >= {"done", "stopped", "limit", "deeper", "no depth"}, f"   {ends}")


def try_depths(trial, name, path, given):
    """The depths that are said to end a run end it, and none of them may be less."""
    read = source.read(path)
    run = replay.given(read, source.network(read, "T"), Path(given).read_bytes(), [path, "T", given])
    search = depths.Search(run)
    search.end += SECONDS
    found = search.least()
    if not found:
        return "no depth"
    text = trial.put("deeper.cpp", depths.with_depths(read, found))
    trial.check_equal(f"{name} is done with the depths {found}", trial.run(["run", text, "T", given]).status, 0)
    for declared, depth in found.items():
        less = {**found, declared: depth - 1}
        text = trial.put("deeper.cpp", depths.with_depths(read, less))
        trial.check(f"{name} is not done with a depth less", trial.run(["run", text, "T", given]).status == 8, f"   {less}")
    return "deeper"


def try_confirmed(trial):
    """The depths of an example, as an explanation says them, confirmed by the program."""
    path = os.path.join(ROOT, "examples", "too_shallow.cpp")
    read = source.read(path)
    run = replay.given(read, source.network(read, "TooShallow"), b"{}", [path, "TooShallow"])
    said = depths.ending(run, Program(trial.program, False))
    trial.check("the depth that ends examples/too_shallow.cpp", said is not None and said[0].startswith("give `data` a depth of 2 (line ") and said[0].endswith("now 1): the least with which this run ends"), f"   {said}")
