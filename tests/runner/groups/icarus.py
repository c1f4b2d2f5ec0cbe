"""Circuits in Icarus Verilog, if it is installed: the report of `cosim`, and circuits with the block RAM and the bus of the page Circuit and with random memories
(`tools/check_memories.py`). The circuits are reset in the middle of runs, and what is requested of a memory stays until it is ready. `tests/stress/more.py PROGRAM memories` tries
more random programs."""
import re
import shutil

from runner.trial import ROOT, read

STORES = read("tests/cases/files/stores.cpp")


def try_report(trial):
    """Icarus Verilog shows what `cosim` shows, and writes the waveform and the testbench that are asked for."""
    folder = trial.folder.name
    text = trial.put("i.v", trial.run(["build", "examples/vector_add.cpp", "VecAdd"], ROOT).out)
    said = trial.run(["cosim", text, "examples/vector_add.json"], ROOT).out.decode()
    words = ["icarus.py", text, "examples/vector_add.json", "--dump", f"{folder}/i.vcd", "--bench", f"{folder}/bench.v"]
    trial.check_equal("icarus.py prints what cosim prints", trial.tool(*words)[1], said)
    for name, word in (("i.vcd", " at_3 "), ("bench.v", "$dumpvars")):
        trial.check(f"icarus.py writes {name}", word in read(f"{folder}/{name}"))
    bad = trial.put("bad.json", '{"scalars": {"n": 1}, "memories": {"a": 3}}')
    for given, wanted in (([text], "{}: scalars has no n, a number, which the circuit takes"), ([text, bad], f"{bad}: memories has no a, a list of numbers, which the circuit takes"),
                          ([text, text], f"{text}:1:1: no JSON from here on"), ([bad], "this is no circuit that `tapa build` wrote: it has no module")):
        trial.check_equal(f"what icarus.py {' '.join(given)} says", trial.tool("icarus.py", *given), (1, "", f"tools/icarus.py: {wanted}\n"))


def try_bus(trial):
    """The lines of docs/CIRCUIT.md for a bus lose no store. If they compare the address only, they lose one."""
    source, data = trial.put("stores.cpp", STORES), trial.put("stores.json", '{"scalars": {"t": 3}, "memories": {"a": [0]}}')
    words = ["check_memories.py", trial.program, source, "T", data, "--memories", "bus"]
    trial.check_equal("stores to a bus", trial.tool(*words), (0, "1 circuits, 0 runs otherwise\n", ""))
    page = read("docs/CIRCUIT.md").replace(" && asked_we == m_a_we", "")
    status, out, err = trial.tool(*words, "--page", trial.put("page.md", page))
    trial.check("a bus that compares the address only loses a store", (status, out.count("['memory a: 0']"), out.endswith("1 circuits, 3 runs otherwise\n")) == (1, 3, True), out + err)


def try_memories(trial):
    """The lines of docs/CIRCUIT.md for a block RAM and for a bus, and memories with random bits where they are not ready, with resets in the middle of runs."""
    for words in ([], ["tests/cases/circuits/features.cpp", "Top", "tests/cases/circuits/features.json"]):
        status, out, err = trial.tool("check_memories.py", trial.program, *words)
        trial.check(f"circuits with other memories {' '.join(words)}", (status, out.endswith(", 0 runs otherwise\n")) == (0, True), out + err)
    status, out, err = trial.tool("../tests/stress/more.py", trial.program, "memories", "4", "0")
    trial.check("random programs with other memories", (status, out) == (0, "8 passed, 0 failed\n"), out + err)
    words = ["examples/vector_add.cpp", "VecAdd", "examples/vector_add.json"]
    gated = re.sub(r"assign addr_0 = (.*?) ;", r"assign addr_0 = ack_0 ? \1 : 64'd0 ;", trial.run(["build", *words[:2]], ROOT).out.decode())
    status, out, err = trial.tool("check_memories.py", trial.program, *words, "--text", trial.put("gated.v", gated.encode()), "--memories", "random")
    trial.check("an address that comes only with ack is seen", (status, "bad a is asked for something else while it waits" in out) == (1, True), out + err)


def try_all(trial):
    if not shutil.which("iverilog") or not shutil.which("vvp"):
        trial.note("there is no Icarus Verilog here, so circuits were not tried in it")
        return
    try_report(trial)
    try_bus(trial)
    try_memories(trial)
