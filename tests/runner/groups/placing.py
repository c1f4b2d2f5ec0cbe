"""The readers of device files and plans in `tools/vechaqir/host/`, compared with the program, and `tools/estimate.py`, with what it reports as short if the program finds no
room."""
import json
import os

from runner.groups.sources import bytes_of, table
from runner.trial import ROOT, each, read
from vechaqir.host import device, estimate, plan, program

EXAMPLES = [tuple(it) for it in json.loads(read("tests/cases/devices/read.json"))]

# Texts that are no device, and a part of what is told of them.
NO_DEVICES = [*json.loads(read("tests/cases/devices/unread.json")), ("[" * 100000, "nested too deep")]


@each(EXAMPLES)
def try_readers(trial, source, top, file):
    """What the program says of a device file, it says of the file that is written from what was read of it."""
    path = f"examples/devices/{file}.json"
    known = device.read(os.path.join(ROOT, path))
    said = trial.run(["plan", f"examples/{source}.cpp", top, path], ROOT)
    known.original = {}
    again = trial.run(["plan", f"examples/{source}.cpp", top, trial.put("written.json", known.text(known.pins))], ROOT)
    trial.check(f"{path}, read and written", again.status == 0 and again.out == said.out, f"   {again}")
    planned = plan.parse(said.out.decode())
    at = {label: known.number(place) for label, place in planned.tasks.items()}
    full = [number for place, uses in planned.slots.items() for number in [known.number(place)] if any(a > b for a, b in zip(uses, known.room(number)))]
    trial.check(f"the plan of {source} on {file} is within the room of each slot", at and not full, f"   {full}")


def try_faults(trial):
    for text, words in NO_DEVICES:
        try:
            told = str(device.parse(text))
        except device.DeviceFault as fault:
            told = str(fault)
        trial.check(f"device.parse of {text[:40]}", words in told, f"   {told}")
    for text in ("", "slot 0 0: 1 2 3 4\n", "cost 3\n", read("README.md")):
        try:
            told = str(plan.parse(text))
        except plan.PlanFault as fault:
            told = "fault: " + str(fault)
        trial.check(f"plan.parse of {text[:20]!r}", told.startswith("fault: "), f"   {told}")


# Device files with a fault that the program tells itself.
HOSTILE = [*map(bytes_of, table("tests/cases/devices/hostile.rows")[1]), b'{"rows":%s,"cols":1,"slots":[{}]}' % (b"9" * 5000), b"[" * 5000]

MULTIPLIES = read("tests/cases/files/multiplies.cpp")

# What tools/estimate.py prints of it on one slot without DSP.
MULTIPLIES_TOLD = read("tests/cases/files/multiplies.told")

# Devices without room for it, and what is short.
SHORT = json.loads(read("tests/cases/devices/short.json"))


def grid_of(given, rows=1):
    """A device file's text: slots as lists of LUT, FF, BRAM, DSP, filled to 100 percent where nothing else is given."""
    slots = [dict(zip(device.RESOURCES, amounts)) for amounts in given["slots"]]
    return json.dumps({"version": 2, "rows": rows, "cols": len(slots) // rows, "percent": 100, **given, "slots": slots})


def try_estimates(trial):
    """Uses by task and instance, and what a device lacks."""
    source = trial.put("multiplies.cpp", MULTIPLIES)
    small = trial.put("small.json", json.dumps({"rows": 1, "cols": 1, "slots": [{"LUT": 100, "FF": 1000}]}))
    status, out, err = trial.tool("estimate.py", source, "T", small)
    trial.check_equal("estimate.py on a small device", (status, out, err), (0, MULTIPLIES_TOLD, ""))
    status, out, _ = trial.tool("estimate.py", source, "T", "--json")
    told = json.loads(out)
    trial.check_equal("estimate.py --json", (told["all"]["DSP"], told["tasks"]["P"]["DSP"], told["groups"]), (6, 6, [["P$0"], ["C$1"], ["A$2", "B$3"]]))
    called = program.Program(trial.program, False)
    for number, (given, wanted) in enumerate(SHORT):
        path = trial.put("short.json", grid_of(given))
        lines = estimate.shortage(called, source, "T", path)
        holds = len(lines) <= 3 and all(any(words in line for line in lines) for words in wanted) and bool(lines) == bool(wanted)
        trial.check(f"what is short on device {number}", holds, f"   {lines}")
        is_planned = trial.run(["plan", source, "T", path]).status == 0
        trial.check(f"something is short on device {number} where the program has no room", is_planned != bool(lines), f"   {lines}")


def try_overrides(trial):
    """A device's own numbers stand in place of estimates, for one task or for several."""
    source = trial.put("multiplies.cpp", MULTIPLIES)
    found = estimate.estimate(program.Program(trial.program, False), source, "T", {"P": [1, 2, 3, 4, 5], "B": [9, 0, 0, 0, 0]})
    trial.check_equal("an estimate with tasks of a device", found.tasks, {"P": [1, 2, 3, 4, 5], "C": [74, 45, 0, 0, 0], "A": [6, 13, 0, 0, 0], "B": [9, 0, 0, 0, 0]})


@each(("estimate.py", "place.py"))
def try_hostile(trial, tool):
    """Device files with a fault get the program's own line and status; missing files and wrong words a line."""
    source = trial.put("multiplies.cpp", MULTIPLIES)
    for text in HOSTILE:
        path = trial.put("hostile.json", text)
        said = trial.run(["plan", source, "T", path])
        told = trial.tool(tool, source, "T", path)
        trial.check_equal(f"{tool} on the device {text[:30]}", told, (said.status, "", said.err.decode()))
    for words, status in ((["missing.cpp", "T", "missing.json"], 5), ([source, "T", "missing.json"], 5), ([source, "U", path], 1), ([source], 2), ([source, "T", path, "--wrong"], 2)):
        trial.check_that(f"{tool} {' '.join(words[1:])}", trial.tool(tool, *words), lambda *told: told[0] == status and told[1] == "" and "Traceback" not in told[2] and told[2] != "")
    trial.check(f"{tool} --help", trial.tool(tool, "--help")[::2] == (0, ""))
