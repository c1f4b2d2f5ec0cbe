"""What `tools/profile.py` says of the examples adds up to their cycles, and for three slow designs it names the cause, and a change with the gain that it predicts. The three
designs have a shallow stream, a slow task and a late memory."""
import json
import os
import re

from runner.groups import networks
from runner.groups.names import LAYERS
from runner.trial import ROOT, first_words, read, sources

# A worker that takes eight tokens before it gives any, beside a stream that is too shallow for them.
SHALLOW = read("tests/cases/files/shallow.cpp")

# A task of eight ticks a turn between two of three.
SLOW = read("tests/cases/files/slow.cpp")

# A memory that is ready in every sixth cycle.
LATE = read("tests/cases/files/late.cpp")
LATE_DATA = {"memories": {"a": list(range(20)), "s": [0]}, "waits": {"a": [0, 0, 0, 0, 0, 1] * 40}}


def profiled(trial, *words):
    status, out, err = trial.tool("profile.py", *words, "--json")
    trial.check(f"profile.py of {words[0]}", status == 0, f"   {err}")
    return json.loads(out) if status == 0 else {"cycles": 0, "done": False, "tasks": {}, "streams": {}, "bound": {}, "changes": [], "circle": []}


def cycles_of(trial, text, data="{}", top="T"):
    """The cycle in which a source's circuit has done."""
    trial.put("c.cpp", text)
    trial.put("c.json", data)
    trial.put("c.v", trial.run(["build", "c.cpp", top]).out)
    return int(trial.run(["cosim", "c.v", "c.json"]).out.split()[-1])


def try_sums(trial, name, words, has_detached):
    """The cycles of each task, those of the lines and the tokens of the streams, beside the reports of the run and of the simulation."""
    found = profiled(trial, *words, "--no-tries")
    for label, task in found["tasks"].items():
        parts = task["ticks"] + sum(it["cycles"] for it in task["waits"]) + task["ended"] + task["before_wrong_token"]
        lines = sum(sum(costs) for costs in task["lines"].values())
        trial.check_equal(f"cycles of {label} in {name}", (parts, lines), (found["cycles"], found["cycles"] - task["ended"]))
    ran = trial.run(["run", *words], ROOT).out.decode().splitlines()
    built = trial.put("p.v", trial.run(["build", *words[:2]], ROOT).out)
    end = ["--cycles", str(found["cycles"])] if not found["done"] else []
    said = trial.run(["cosim", built, *words[2:], *end], ROOT).out.decode().splitlines()
    trial.check_equal(f"the end of {name}", said[-1], f"{'done' if found['done'] else 'running'} {found['cycles']}")
    tokens = [len(line.split(":")[1].split()) for line in said if line.startswith("stream ")]
    trial.check_equal(f"tokens of {name}", [it["tokens"] for it in found["streams"].values()], tokens)
    if found["done"] and not has_detached:
        trial.check_equal(f"ticks of {name}", f"done {sum(it['ticks'] for it in found['tasks'].values())}", ran[-1])
    if not found["done"]:
        stands = [line.split()[1] for line in trial.run(["run", *words], ROOT).err.decode().splitlines() if "waits to" in line]
        trial.check(f"who waits in {name}", set(found["circle"]) <= set(stands), f"   {found['circle']} of {stands}")


def try_shallow(trial):
    """The stream that is too shallow is named; with the depth that is told the circuit takes the cycles that are told, and no other depths make it faster."""
    found = profiled(trial, trial.put("p.cpp", SHALLOW), "T")
    bound = found["bound"]["waited_for_room"]
    trial.check("the shallow stream bounds it", list(bound)[0] == "past" and found["streams"]["past"]["held_writer"] > 0, f"   {found['bound']}")
    change = found["changes"][0] if found["changes"] else {"text": "none", "cycles": 0}
    depth = change["text"].rpartition(" -> ")[2]
    trial.check("a depth of it alone is told", change["text"] == f"depth of past (line 19) 9 -> {depth}", f"   {change}")
    changed = SHALLOW.replace("int, 9", f"int, {depth}")
    free = SHALLOW.replace("int, 9", "int, 4000").replace("int, 16", "int, 4000")
    less = SHALLOW.replace("int, 9", f"int, {int(depth) - 1}")
    now = cycles_of(trial, SHALLOW)
    trial.check("the cycles with this depth", change["cycles"] == cycles_of(trial, changed) == cycles_of(trial, free) < cycles_of(trial, less) <= now == found["cycles"], f"   {change}")


def try_slow(trial):
    """The slow task is named, and a tick less a turn gives the cycles that are told."""
    path = trial.put("p.cpp", SLOW)
    found = profiled(trial, path, "T")
    bound = found["bound"]["tasks"]
    trial.check("the slow task bounds it", list(bound)[0] == "Slow$1" and bound["Slow$1"] > 0.9 * found["cycles"], f"   {bound}")
    trial.check_equal("no depth makes it faster", found["changes"], [])
    out = trial.tool("profile.py", path, "T")[1]
    shorter = cycles_of(trial, SLOW.replace("y += 3; r << y;", "r << y + 3;"))
    trial.check("a tick less a turn", f"a tick less in each of the 30 turns at line 4 gives {shorter} cycles" in out, f"   {shorter}: {out}")


def try_late(trial):
    """The memory that answers late is named, and what its being ready gives."""
    data = trial.put("p.json", json.dumps(LATE_DATA))
    found = profiled(trial, trial.put("p.cpp", LATE), "T", data)
    ready = cycles_of(trial, LATE, json.dumps({"memories": LATE_DATA["memories"]}))
    trial.check("the late memory bounds it", found["bound"]["memories"].get("a", 0) > 0 and found["tasks"]["Load$0"]["waits"][0]["name"] == "a", f"   {found['bound']}")
    trial.check_equal("what a ready memory gives", found["changes"], [{"text": "memory a ready in each cycle", "cycles": ready}])


def try_page(trial):
    """The sources of docs/CYCLES.md: their cycles, one result of all of them, and each line that the page shows of a profile; with the depths that it tells, the cycles."""
    page = read("docs/CYCLES.md")
    results = set()
    for name, cycles in re.findall(r"^\| `(\w+\.cpp)` \| (\d+) \|", page, re.M):
        source, data = f"examples/cycles/{name}", f"examples/cycles/{name.replace('.cpp', '.json')}"
        trial.put("c.v", trial.run(["build", source, "Sums"], ROOT).out)
        said = trial.run(["cosim", os.path.join(trial.folder.name, "c.v"), data], ROOT).out.decode().splitlines()
        trial.check_equal(f"the cycles of {name}", said[-1], f"done {cycles}")
        results.add(" ".join(line.split(":")[1].strip() for line in said if line.startswith("memory b")))
    trial.check_equal("one result of the sources of docs/CYCLES.md", len(results), 1)
    shown = ""
    for block in re.findall(r"(?:^    .*\n|^\n(?=    ))+", page, re.M):
        lines = [line[4:] for line in block.splitlines() if line.strip()]
        if lines[0].startswith("$ tools/profile.py "):
            shown = trial.tool("profile.py", *lines.pop(0).split()[2:])[1]
        if not lines[0].startswith(("tools/", "$ ")):
            missing = [line for line in lines if line != ".." and line not in shown.splitlines()]
            trial.check(f"the page's lines {lines[0]}", not missing, f"   {missing}")
    text = read("examples/cycles/shared.cpp")
    told = re.search(r"^    (depth of .*): +done in cycle (\d+)", page, re.M)
    for name, depth in re.findall(r"depth of (\w+) \(line \d+\) 2 -> (\d+)", told[1]):
        text = re.sub(rf"tapa::stream<int> (?:early, )?{name};", lambda it: it[0].replace("<int> early, ", "<int> early; tapa::stream<int> ").replace(f"<int> {name}", f"<int, {depth}> {name}"), text)
    trial.check_equal("the depths that the page tells", cycles_of(trial, text.replace("Sums(", "T("), read("examples/cycles/shared.json")), int(told[2]))


def try_expected(trial):
    """The table of docs/CYCLES.md of examples with many elements: the cycles of each, and how many that is for each element."""
    rows = re.findall(r"^\| `(\w+)` \| ([\d,]+) \| 1 \| (\d+) \| ([\d,]+) \|$", read("docs/CYCLES.md"), re.M)
    trial.check("docs/CYCLES.md has the cycles of five examples", len(rows) == 5, f"   {rows}")
    for name, *numbers in rows:
        count, each, cycles = (int(number.replace(",", "")) for number in numbers)
        data = json.loads(read(f"examples/{name}.json"))
        data["scalars"] = {key: 3 if key == "mode" else count for key in data["scalars"]}
        data["memories"] = {key: [place % 97 for place in range(count + key.startswith("to_"))] for key in data["memories"]}
        found = cycles_of(trial, read(f"examples/{name}.cpp"), json.dumps(data), first_words(f"examples/{name}.cpp")[1])
        trial.check_equal(f"the cycles of {name} with {count} elements", (found, found // count), (cycles, each))


def try_words(trial):
    """A dump in place of a simulation, a dump of another circuit, words that are no command, and files that are missing."""
    trial.put("p.cpp", SLOW)
    path = trial.put("p.vcd", trial.run(["cosim", trial.put("p.v", trial.run(["build", "p.cpp", "T"]).out), "--vcd"]).out)
    source = os.path.join(trial.folder.name, "p.cpp")
    trial.check_equal("a profile of a dump", profiled(trial, source, "T", "--dump", path)["cycles"], cycles_of(trial, SLOW))
    status, _, err = trial.tool("profile.py", "examples/vector_add.cpp", "VecAdd", "--dump", path)
    trial.check("a dump of another circuit", status == 1 and "is no dump of this source's circuit" in err and err.count("\n") == 1, f"   {err}")
    for words, wanted in (([source, "U"], f"{source}:1:1: C1 unknown name"), (["examples/vector_add.cpp", "VecAdd"], "{}: J2 scalars.n"),
                          (["examples/vector_add.cpp", "VecAdd", "examples/systolic.json"], "examples/systolic.json: J2 scalars.n")):
        trial.check_equal(f"what profile.py {' '.join(words)} is told", trial.tool("profile.py", *words)[1:], ("", f"tapa: {wanted}\n"))
    for words, wanted in ((["--help"], 0), ([], 2), (["a.cpp", "T", "--depth"], 2), (["none.cpp", "T"], 1), ([source, "U"], 1)):
        trial.check_that(f"profile.py {' '.join(words)}", trial.tool("profile.py", *words), lambda status, _, err: status == wanted and "Traceback" not in err)


def try_ticks(trial):
    """The sums of the examples and of a large network."""
    for path in sources("examples"):
        try_sums(trial, os.path.basename(path), first_words(path), "detach" in read(path))
    trial.put("gen.cpp", networks.network(LAYERS))
    try_sums(trial, "a network of 512 tasks", [os.path.join(trial.folder.name, "gen.cpp"), "Gen"], False)
