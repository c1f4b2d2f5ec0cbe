"""The texts of `crates/vlog_tests/stdin`, which the slow reference of a cycle runs: `cosim` carries what `stdout` there has, and a second evaluator (`runner/second/cycles.py`)
shows the same lines of the texts by hand. The evaluator is written from docs/SUBSET.md only. The texts that `build` makes of the sources of `cases/circuits/` are in that
`stdin`, too, with what `run` shows of them in that `stdout`.

The gate compares the crate's `stdout` with what the reference shows. Behind MARK stand the circuits of tests/cases/circuits: what they are to show is what `run` shows of their
sources, and the cycle in which `cosim` has done them. `tests/run.py write reference PROGRAM` writes both anew."""
import json
import os
import re

from runner.second import cycles
from runner.trial import ROOT, CASES, read

STDIN, STDOUT = "crates/vlog_tests/stdin", "crates/vlog_tests/stdout"
MARK = "// What `tapa build` made of the sources of tests/cases/circuits, put here by tests/run.py write reference, from two contents at power-up: 0, and 64 ones.\n"
FILLS = (0, 2**64 - 1)
# The cycles after which a circuit that comes to a stop carries nothing more, a limit for the others, and the steps that a net may take.
ENOUGH, MOST, STEPS = 150, 1000, 1000
CHANNEL = read("tests/cases/files/channel.template")
PORT = re.compile(r"(input|output) (?:\[ (\d+) : 0 \] )?([\w$]+)")


class Run:
    """A text, what stands around its top, the number at power-up, the most cycles, and the nets that are shown, each with its path."""

    def __init__(self, text, scalars, memories, ready, fill, cycles, nets):
        self.text, self.scalars, self.memories, self.ready, self.fill, self.cycles, self.nets = text, scalars, memories, ready, fill, cycles, nets

    def data(self):
        """What stands around the top, as a data file has it."""
        scalars, memories = (dict(ports) for ports in ports_of(self.text))
        lists = [*self.ready, *[[]] * len(memories)]
        return {"scalars": dict(zip(scalars, self.scalars)), "memories": dict(zip(memories, self.memories)), "waits": dict(zip(memories, lists))}


def ports_of(text):
    """The scalars and the memories of the last module, each with its bits."""
    header = re.findall(r"^module [\w$]+ \((.*)\) ;$", text, re.M)[-1]
    ports = [(name, int(high or 0) + 1) for _, high, name in PORT.findall(header)]
    bits = dict(ports)
    return [(name[2:], wide) for name, wide in ports if name.startswith("v_")], [(name[2:-4], bits[f"{name[:-4]}_rdata"]) for name, _ in ports if name.endswith("_ack")]


def runs(stdin):
    """Each run for which the lines ask."""
    text, scalars, memories, ready, nets, fill, is_run = [], [], [], [], [], 0, False
    for line in stdin.splitlines():
        first, *words = line.split() or [""]
        if first == "//=":
            yield Run("\n".join(text), scalars, memories, ready, fill, int(words[0]), nets)
            nets, is_run = [], True
        elif first == "//:":
            numbers = [int(word) for word in words[1:]] if words[0] != "net" else []
            if words[0] == "fill":
                fill = numbers[0]
            elif words[0] == "scalars":
                scalars = numbers
            elif words[0] in ("memory", "ready"):
                (memories if words[0] == "memory" else ready).append(numbers)
            elif words[0] == "net":
                nets.append((words[:1:-1], words[1]))
        elif first != "//":
            if is_run:
                text, scalars, memories, ready, is_run = [], [], [], [], False
            text.append(line)


def shown(stdout):
    """The lines of each run."""
    lines = []
    for line in stdout.splitlines():
        lines.append(line)
        if re.fullmatch(r"(not )?done in cycle \d+", line):
            yield lines
            lines = []


def report_of(lines):
    """What `cosim` reports where the reference shows these lines."""
    parts = [re.sub(r"^(stream|memory) ([\w$]+)", r"\1 \2:", line) for line in lines if re.match(r"stream |memory ", line)]
    *rest, cycle = lines[-1].split()
    return parts + [f"running {int(cycle) - 1}" if "not" in rest else f"done {cycle}"]


def try_run(trial, name, run, lines):
    trial.put("x.v", run.text)
    trial.put("d.json", json.dumps(run.data()))
    said = trial.run(["cosim", "x.v", "d.json", "--cycles", str(run.cycles - 1)])
    trial.check_equal(name, said.out.decode().splitlines(), report_of(lines))
    trial.check(f"{name}: the status", said.status == (7 if "not" in lines[-1].split() else 0), f"   {said}")


def try_beside(trial, name, run, lines):
    """A run beside the second evaluator; of a net whose steps were too few, the reference says `?`."""
    scalars, memories = (list(dict(ports)) for ports in ports_of(run.text))
    lists = [*run.ready, *[[]] * len(memories)]
    machine = cycles.Machine(run.text, zip(scalars, run.scalars), dict(zip(memories, run.memories)), dict(zip(memories, lists)), run.fill)
    wanted = [line for line in lines if line != "simulated alike"]
    if not any("?" in line for line in wanted):
        trial.check_equal(f"{name}, by the second evaluator", cycles.shown(machine, run.nets, run.cycles), wanted)


def sources():
    """The sources of tests/cases/circuits that the reference runs: those that have their data in the first line. It is too slow for the others."""
    found = [f"tests/cases/circuits/{name}" for name in sorted(os.listdir(os.path.join(CASES, "circuits"))) if name.endswith(".cpp")]
    return [name for name in found if re.match(r"// \w+ \{", read(name))]


def numbers_of(values, ports):
    """The numbers that values of a data file stand for."""
    return [[value % 2**bits for value in values[name]] if isinstance(values[name], list) else values[name] % 2**bits for name, bits in ports]


def circuit(trial, source):
    """A source's text with what stands around it, and what it is to show."""
    top, data = re.match(r"// (\w+) (\{.*\})\n", read(source)).groups()
    path, data = trial.put("d.json", data), json.loads(data)
    ran, built = trial.run(["run", source, top, path], ROOT), trial.run(["build", source, top], ROOT)
    limit = MOST if ran.status == 0 else ENOUGH
    carried = trial.run(["cosim", trial.put("x.v", built.out), path, "--cycles", str(limit - 1)])
    text = built.out.decode()
    scalars, memories = ports_of(text)
    waits = {name: data.get("waits", {}).get(name, []) for name, _ in memories}
    lines = [("scalars", numbers_of(data.get("scalars", {}), scalars))] if scalars else []
    lines += [("memory", cells) for cells in numbers_of(data.get("memories", {}), memories)] + [("ready", waits[name]) for name, _ in memories]
    given = "".join(f"//: {' '.join(map(str, [word, *numbers]))}\n" for word, numbers in lines)
    asked = "".join(f"//: fill {fill}\n//= {limit} {STEPS}\n" for fill in FILLS)
    parts = [re.sub(r":", "", line, count=1) for line in ran.out.decode().splitlines()[:-1]]
    word, cycle = (carried.out.decode().splitlines() or ["none 0"])[-1].split()
    end = f"done in cycle {cycle}" if word == "done" else f"not done in cycle {int(cycle) + 1}"
    return f"// {source}\n{text}{given}{asked}", "".join(f"{line}\n" for line in ["simulated alike", *parts, end]) * len(FILLS)


def parts_of(stdin, stdout):
    """The front of both files, before the circuits."""
    front = stdin.partition(MARK)[0]
    count = len(list(runs(front)))
    return front, "".join(f"{line}\n" for lines in list(shown(stdout))[:count] for line in lines)


def files(trial):
    """Both files as they are to be."""
    texts, tables = parts_of(read(STDIN), read(STDOUT))
    made = [circuit(trial, source) for source in sources()]
    return texts + MARK + "".join(text for text, _ in made), tables + "".join(table for _, table in made)


def try_channels(trial):
    """The channels that stand in front, as texts by hand, are those that `build` prints, without registers and with one each way."""
    front = read(STDIN).partition(MARK)[0]
    slots = [{"LUT": 9000, "FF": 9000}] * 2
    device = trial.put("v.json", json.dumps({"rows": 2, "cols": 1, "levels": 1, "slots": slots, "pins": {"P$0": [0, 0], "C$1": [1, 0]}}))
    for kind, depth, words in (("bool", 1, []), ("uint64_t", 2, ["--device", device])):
        source = trial.put("c.cpp", CHANNEL.replace("KIND", kind).replace("DEPTH", str(depth)))
        built = trial.run(["build", source, "T", *words]).out.decode()
        parts = re.findall(r"^module (?:channel|fifo|relay)_.*?^endmodule$", built, re.M | re.S)
        trial.check(f"the channels of {STDIN}, {kind}", len(parts) > 1 and all(part in front for part in parts), f"   {parts}")


def try_all(trial):
    try_channels(trial)
    stdin, stdout = files(trial)
    trial.check(f"{STDIN} has the circuits of tests/cases/circuits (tests/run.py write reference writes them)", read(STDIN) == stdin)
    trial.check_equal(STDOUT, read(STDOUT), stdout)
    all_runs, all_lines = list(runs(stdin)), list(shown(stdout))
    for number, (run, lines) in enumerate(zip(runs(stdin.partition(MARK)[0]), all_lines), 1):
        try_beside(trial, f"run {number} of {STDIN}", run, lines)
    trial.check_equal("runs", len(all_runs), len(all_lines))
    for number, (run, lines) in enumerate(zip(all_runs, all_lines), 1):
        if run.fill == 0:
            try_run(trial, f"run {number} of {STDIN}", run, lines)
