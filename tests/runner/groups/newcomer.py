"""Eight designs as TAPA users write them (`cases/newcomer/`): how the first refusal of each is explained, and that `tools/port.py` ports seven of them completely, with the
results of plain Python. `NAME.told` has the explanation; the list of constructs that the tool prints without libclang is tested, too."""
import json
import os
import re

from runner.groups import port
from runner.groups.explanations import GENERAL, NEVER, explained
from runner.trial import CASES, read
from vechaqir.language import source

# What is left of the design that polls several streams.
LEFT = {"butterfly": 1}
# The top task of each design, its data, and the cells of memories that the same computation in plain Python gave for them.
DESIGNS = json.loads(read("tests/cases/newcomer/designs.json"))


def try_told(trial, name):
    """The first refusal of a design is explained by its construct, with a place in docs/FROM_TAPA.md and the tool that ports it."""
    _, told = explained(trial, ["run", os.path.join(CASES, "newcomer", f"{name}.cpp"), DESIGNS[name][0]])
    trial.check(f"{name}: its first refusal is explained by its construct", "docs/FROM_TAPA.md" in told and "tools/port.py" in told and GENERAL not in told and NEVER not in told, f"   {told}")
    place = re.match(r"tapa: .*?:\d+:\d+: ([A-Z]\d+)", told)
    says = next((line for line in told.splitlines() if line.startswith("      = ") and "arrays written out" not in line), "")
    trial.check_equal(f"{name}: how its first refusal is explained", f"{place[1] if place else told} {says[8:]}\n", read(f"tests/cases/newcomer/{name}.told"))


def try_ported(trial, name):
    """A design through `port.py --write`; where nothing is left it gives what Python computes."""
    top, data, wanted = DESIGNS[name]
    out = os.path.join(trial.folder.name, f"{name}.cpp")
    status, told, said = port.asked(trial, [os.path.join(CASES, "newcomer", f"{name}.cpp"), top, "--write", out])
    left = LEFT.get(name, 0)
    trial.check(f"{name}: what is left of it", (status, f"; {left} left to change" in said) == (1 if left else 0, True), told + said)
    if left or status:
        return
    words = ["run", out, top, trial.put(f"{name}.json", json.dumps(data))]
    ran = trial.run(words)
    cells = {key: [int(it) for it in row.split()] for key, row in re.findall(r"^memory (\w+):(.*)$", ran.out.decode(), re.M)}
    bits = {it.name: it.kind.bits for it in source.read(out).tasks[top].parameters}
    trial.check(f"{name}: it is accepted, and gives what Python computes", ran.status == 0 and all(cells.get(key) == [it % 2 ** bits[key] for it in row] for key, row in wanted.items()), f"   {ran}\n   {wanted}")


LISTED = read("tests/cases/files/listed.cpp")
CONSTRUCTS = {(1, "`using namespace`"), (2, "an array of the file"), (3, "a list of values"), (11, "an array of streams as one argument"), (11, "a counted invoke of a longer array"), (14, "a struct"),
              (16, "a declaration in a condition"), (15, "a type by another name"), (17, "a value in braces")}


def try_listed(trial):
    """The list of a source has each construct in its line, and none beside; a binary file is one sentence, at once."""
    status, out, err = trial.tool("port.py", trial.put("l.cpp", LISTED))
    trial.check_equal("what is listed", {(int(line), construct) for line, construct in re.findall(r"^.*?:(\d+):\d+: (.*?): ", out, re.M)}, CONSTRUCTS)
    trial.check_equal("the status of a list", (status, err), (1, ""))
    path = trial.put("binary.cpp", b"int x;\n" + bytes(range(256)) * 8000)
    trial.check_equal("the list of a binary file", trial.tool("port.py", path), (1, "", f"tools/port.py: {path}:2: the byte 0x00 is not of a C++ source\n"))
    status, out, _ = trial.tool("port.py", "examples/vector_add.cpp")
    trial.check_equal("the list of a source that is accepted", (status, out), (0, ""))


def try_all(trial):
    try_listed(trial)
    has_port = port.is_there(trial)
    for name in DESIGNS:
        try_told(trial, name)
        if has_port:
            try_ported(trial, name)
