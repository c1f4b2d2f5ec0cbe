"""What `tools/names.py` says of registers, states and lines, for the examples and for random tasks: compared with the text that `build` writes, and with a dump of `cosim` in
each cycle. The registers themselves are compared, too, if Icarus Verilog is installed."""
import json
import os
import re
import shutil

from runner.groups import networks
from runner.made import leaves
from runner.made.handmade import module_of
from runner.trial import ROOT, first_words, read, sources as paths
from vechaqir.host import dump
from vechaqir.language import source
from vechaqir.machine import names, run as machine_run

# Random leaf tasks, those of them that Icarus Verilog runs too, and the most cycles of each.
COUNT, IN_ICARUS, CYCLES = 60, 12, "400"
# The layers of a network of 512 tasks, which is followed to its end.
LAYERS = 126
DEVICES = [f"examples/devices/{name}.json" for name in ("two_halves", "two_dies", "u280")]
# What a state waits for, by its act: the net's front, with the number of its stream or memory.
WAITS = {"read": "datum", "peek": "datum", "eot": "has", "open": "eot", "write": "rdy", "close": "rdy", "load": "ack", "store": "ack"}


def sources():
    """Name, text, top and data of each example and of each source of tests/cases/circuits."""
    for path in paths("examples", "tests/cases/circuits"):
        text = read(path)
        if text.startswith("// tapa "):
            _, top, *words = first_words(path)
            yield path, text, top, next((read(it) for it in words if it.endswith(".json")), "{}")
        else:
            top, _, data = text.split("\n")[0].removeprefix("// ").partition(" ")
            yield path, text, top, data or "{}"


def in_text(body):
    """What the text of a task's module has: bits of registers, cells and bits of arrays, and of each state what it waits for and where it leads."""
    registers = [int(high or 0) + 1 for high, _ in re.findall(r"^  reg (?:\[ (\d+) : 0 \] )?x_(\d+) ;$", body, re.M)]
    arrays = [(int(high or 0) + 1, int(last) + 1) for high, last in re.findall(r"^  reg (?:\[ (\d+) : 0 \] )?a_\d+ \[ 0 : (\d+) \] ;$", body, re.M)]
    following = {int(k): (cond, int(yes), int(no)) for k, cond, yes, no in re.findall(r"assign next_(\d+) = (\S+) \? \d+'d(\d+) : \d+'d(\d+) ;", body)}
    leads = [re.search(rf"assign to_{k} = (?:at_{k} \? )?(\S+)", body)[1] for k in range(len(re.findall(r"assign at_\d+ = ", body)))]
    return registers, arrays, [following[k] if lead.startswith("next_") else (None, int(lead.split("'d")[1]), None) for k, lead in enumerate(leads)]


def as_named(machine):
    """The same of a machine that is read from the source."""
    states = []
    for number, state in enumerate(machine.states):
        if state.act in WAITS:
            states.append((f"{WAITS[state.act]}_{state.subject}", state.next, number))
        elif state.act == "test":
            states.append(("", state.next, state.otherwise))
        elif state.act == "clear":
            states.append(("", number, state.next))
        else:
            states.append((None, number if state.act == "end" else state.next, None))
    return [it.kind.bits for it in machine.registers], [(it.kind.bits, it.cells) for it in machine.arrays], states


def differing(found, machine):
    """Where the text of a module and a machine differ, in words; a test's own net has no name of the source."""
    registers, arrays, states = in_text(found)
    wanted, cells, named = as_named(machine)
    named = [("" if has[0] and want[0] == "" else want[0], *want[1:]) for has, want in zip(states, named)] if len(states) == len(named) else named
    states = [("" if want[0] == "" else has[0], *has[1:]) for has, want in zip(states, named)] if len(states) == len(named) else states
    parts = (("registers", registers, wanted), ("arrays", arrays, cells), ("states", states, named))
    return [f"{part}: {has} in the text, {want} by name" for part, has, want in parts if has != want]


def try_source(trial, name, text, top, data, with_icarus, cycles=CYCLES):
    """A source's names beside its circuit; the number of cycles in which they were compared."""
    trial.put("n.cpp", text)
    data = trial.put("n.json", data)
    built = trial.run(["build", "n.cpp", top])
    if built.status != 0:
        trial.check(f"{name} is built", False, f"   {built}")
        return
    circuit = trial.put("n.v", built.out)
    has = source.parse(text.encode(), name)
    network = source.network(has, top)
    run = compared_with_cosim(trial, name, has, network, circuit, data, cycles)
    told = [f"t_{task}: {line}" for task, machine in run.machines.items() for line in differing(module_of(built.out.decode(), f"t_{task}"), machine)]
    trial.check(f"registers and states of {name} as in its text", not told, "\n".join(told[:3]))
    if with_icarus:
        compared_with_icarus(trial, name, has, network, circuit, data)


def compared_with_cosim(trial, name, has, network, circuit, data, cycles):
    """Each cycle of a dump of `cosim` shows what the machines do, and at the end they have made the ticks of the run."""
    said = trial.run(["cosim", circuit, data, "--vcd", "--cycles", cycles])
    run = machine_run.Run(has, network, dump.read(trial.put("n.vcd", said.out)))
    ticks, told = 0, ""
    try:
        for _ in run.cycles():
            ticks += sum(it.status == "tick" and not it.instance.detached for it in run.followers)
    except machine_run.NotOfThisSource as why:
        told = str(why)
    trial.check(f"the machines of {name} beside its dump", not told, f"   {told}")
    ran = trial.run(["run", "n.cpp", network.top, data])
    if said.status == 0 and ran.status == 0:
        trial.check_equal(f"ticks of {name}", f"done {ticks}", ran.out.decode().splitlines()[-1])
    return run


def compared_with_icarus(trial, name, has, network, circuit, data):
    """Each register of each instance has in each cycle, in Icarus Verilog, what the variable of its name holds."""
    path = os.path.join(trial.folder.name, "i.vcd")
    trial.tool("icarus.py", circuit, data, "--dump", path, "--cycles", CYCLES)
    dumped = dump.read(path)
    run = machine_run.Run(has, network, dumped)
    nets = [(it, dumped.name(f"t_{it.instance.label}.state"), [dumped.name(f"t_{it.instance.label}.x_{k}") for k in range(len(it.registers) or len(it.machine.registers))]) for it in run.followers]
    also = tuple(net for _, state, registers in nets for net in [state, *registers] if net in dumped.nets)
    told, compared = [], 0
    for cycle, values in run.cycles(also):
        for follower, state, registers in nets:
            held = [(net, values[net], follower.registers[k]) for k, net in enumerate(registers)] + [(state, values.get(state, follower.at), follower.at)]
            told += [f"{net} in cycle {cycle}: {shows}, and by name {holds}" for net, shows, holds in held if shows != holds]
            compared += len(held)
    trial.check(f"registers of {name} in Icarus Verilog", compared > 0 and not told, "\n".join(told[:5]))


def unprinted(table, text):
    """The names of a table that the printed text does not have, each in its module."""
    words = {name: set(module_of(text, name).split()) for name in re.findall(r"^module (t_\S+)", text, re.M)}
    for module in table["modules"]:
        nets = [it["net"] for it in module["registers"] + module["arrays"]] + " ".join(it["nets"] for it in module["ports"]).split()
        yield from (f"{module['module']}.{net}" for net in nets if net not in words[module["module"]])
    nets = [it[key] for it in table["instances"] for key in ("instance", "module", "ended")]
    nets += [net for it in table["channels"] for net in (it["instance"], *(it["nets"].replace("*", end) for end in ("din", "wr", "rdy", "has", "take", "dout")))]
    yield from (f"{table['module']}.{net}" for net in nets if net not in words[table["module"]])


def try_printed(trial, name, text, top):
    """Each name of the table is in the printed text, without a device and on each one on which the source has room."""
    trial.put("n.cpp", text)
    has = source.parse(text.encode(), name)
    table = names.table(has, source.network(has, top))
    for device in ("", *DEVICES):
        built = trial.run(["build", "n.cpp", top, *(["--device", os.path.join(ROOT, device)] if device else [])])
        trial.check(f"names of {name} on {device or 'no device'}", built.status in (3, 4) if device and built.status else not list(unprinted(table, built.out.decode())), f"   {built}")


def try_tool(trial):
    """The table, the save file for GTKWave with its translate files, and the waveform by the source's names."""
    words = ("examples/vector_add.cpp", "VecAdd")
    shown = trial.tool("names.py", *words)[1]
    trial.check("the table has registers, states and channels", all(line in shown for line in (
        "x_1                  i                    uint64_t  variable   8:17", "state 2  8:44  read a: a.read()", "c_a_q  s_a_q_*  int, depth 2  Mmap2Stream$0 -> Add$2")), shown)
    made = json.loads(trial.tool("names.py", *words, "--json")[1])
    trial.check_equal("the table as JSON", (made["module"], [it["module"] for it in made["modules"]]), ("t_VecAdd", ["t_Mmap2Stream", "t_Add", "t_Stream2Mmap"]))
    circuit = trial.put("v.v", trial.run(["build", *words], ROOT).out)
    path = trial.put("v.vcd", trial.run(["cosim", circuit, "examples/vector_add.json", "--vcd"], ROOT).out)
    save = os.path.join(trial.folder.name, "v.gtkw")
    status, _, err = trial.tool("names.py", *words, "--gtkw", save, "--dump", path)
    lines = read(save).splitlines()
    trial.check("a save file for GTKWave", status == 0 and "-stream a_q: Mmap2Stream$0 to Add$2" in lines and "+{s_a_q_din} t_VecAdd.s_a_q_din[32:0]" in lines, f"   {lines[:6]} {err}")
    trial.check_equal("a translate file", read(os.path.join(trial.folder.name, "v.t_Add.states")).splitlines()[2], "2 8: read a")
    made = trial.put("w.vcd", trial.tool("names.py", *words, "--waves", path)[1])
    shown = dump.read(made)
    values = [values["VecAdd.Add$2.i"] for _, values in shown.cycles(["VecAdd.Add$2.i"])]
    trial.check_equal("the waveform of a variable", [it for k, it in enumerate(values[2:]) if k == 0 or it != values[2:][k - 1]], [0, 1, 2, 3, 4, 5])
    other = trial.put("o.cpp", read("examples/vector_add.cpp").replace("a.read() + b.read()", "a.read() - b.read()"))
    trial.check_equal("a dump of another source", trial.tool("names.py", other, "VecAdd", "--waves", path)[::2], (1, f"tools/names.py: in cycle 7 {path} shows of Add$2 otherwise than the source what it writes to c_q\n"))
    trial.check_equal("a dump that is none", trial.tool("names.py", *words, "--waves", other)[0], 1)


def try_all(trial):
    has_icarus = bool(shutil.which("iverilog") and shutil.which("vvp"))
    if not has_icarus:
        trial.note("there is no Icarus Verilog here, so registers were not compared with variables by it")
    for name, text, top, data in sources():
        try_source(trial, name, text, top, data, has_icarus)
        try_printed(trial, name, text, top)
    for seed in range(COUNT):
        try_source(trial, f"the random leaf {seed}", leaves.source(seed), "T", json.dumps(leaves.DATA), has_icarus and seed < IN_ICARUS)
    try_source(trial, "a network of 512 tasks", networks.network(LAYERS), "Gen", "{}", False, "2000")
    try_tool(trial)
