"""Features that no example has (`cases/circuits/features.cpp`), by run, by circuit and by a circuit for a far device, and sizes that are not limited. These sizes are many
tokens, long names, a large memory inside, and many memories. What the contracts leave free is want of memory alone, so a body that answers it for long names or large memories
is no wrong one to a prover."""
import json
import os

from runner.groups import circuits, pipelines, reference

from runner.second import cycles
from runner.trial import ROOT, read

FEATURES = "tests/cases/circuits/features"

DETACHED = read("tests/cases/files/all_detached.cpp")

# A design that counts up to a number, carries its count on a stream in each cycle, and has a memory of a million cells inside.
COUNTER = read("tests/cases/files/counter.v")


def try_features(trial):
    """The source of features: its report, worked out by a second program, its circuit, and its circuit on a device with long wires."""
    source, data = f"{FEATURES}.cpp", f"{FEATURES}.json"
    ran = trial.run(["run", source, "Top", data], ROOT)
    trial.check_equal("the features run", (ran.status, ran.out.decode(), ran.err), (0, read(f"{FEATURES}.out"), b""))
    circuits.try_circuit(trial, FEATURES)
    pipelines.try_example(trial, FEATURES)
    far = os.path.join(ROOT, "tests/cases/circuits/far.json")
    for words in ([], ["--no-balance"]):
        built = trial.run(["build", source, "Top", "--device", far, *words], ROOT)
        trial.check("the features are built for a far device", b"relay_17_128" in built.out, f"   {built}")
        trial.put("x.v", built.out)
        circuits.try_text(trial, FEATURES, ["run", source], json.loads(read(data)), ran, f"on a far device {' '.join(words)}")


def try_evaluator(trial):
    """The circuit of the features, cycle by cycle in the second evaluator, from two contents at power-up: it carries what the run shows."""
    data = json.loads(read(f"{FEATURES}.json"))
    text = trial.run(["build", f"{FEATURES}.cpp", "Top"], ROOT).out.decode()
    scalars, memories = reference.ports_of(text)
    given = [(name, data["scalars"][name] % 2**bits) for name, bits in scalars]
    cells = {name: [cell % 2**bits for cell in data["memories"][name]] for name, bits in memories}
    waits = {name: data["waits"].get(name, []) for name, _ in memories}
    wanted = [line.replace(":", "", 1) for line in read(f"{FEATURES}.out").splitlines()[:-1]]
    for fill in reference.FILLS:
        machine = cycles.Machine(text, given, {name: list(values) for name, values in cells.items()}, waits, fill)
        *lines, end = cycles.shown(machine, [], reference.MOST)
        trial.check_equal(f"the features by the second evaluator, from {fill}", lines, wanted)
        trial.check_equal("their last cycle", end, "done in cycle 183")


def try_detached(trial):
    """Where all tasks are detached, a circuit is done in its first cycle, and the run at once."""
    source = trial.put("r.cpp", DETACHED)
    said = trial.run(["run", source, "T", "--steps", "100"])
    trial.check_equal("all are detached", (said.status, said.out), (0, b"stream q:\ndone 0\n"))
    trial.put("x.v", trial.run(["build", source, "T"]).out)
    said = trial.run(["cosim", "x.v"])
    trial.check_equal("all are detached in a circuit", (said.status, said.out.split(b"\n")[-2]), (0, b"done 1"))


def try_sizes(trial):
    """Sizes that are no limit of a simulation: many tokens, a memory of 1,048,576 cells inside, a name of 1,000 bytes, and 70 memories around a design."""
    trial.put("x.v", COUNTER)
    said = trial.run(["cosim", "x.v"])
    tokens = " ".join(map(str, range(70_000)))
    trial.check("a stream of 70,000 tokens, and a memory of 1,048,576 cells", (said.status, said.out) == (0, f"stream q: {tokens}\ndone 70000\n".encode()), f"   {said.status} {said.err}")
    name = "n" * 1000
    trial.put("x.v", COUNTER.replace("s_q_", f"s_{name}_").replace("69999", "1"))
    said = trial.run(["cosim", "x.v"])
    trial.check_equal("a name of 1,000 bytes", (said.status, said.out), (0, f"stream {name}: 0 1\ndone 2\n".encode()))
    ports = "".join(f" , output [ 63 : 0 ] m_{n}_addr , output [ 7 : 0 ] m_{n}_wdata , output m_{n}_we , input m_{n}_ack , input [ 7 : 0 ] m_{n}_rdata" for n in names_of_memories())
    drivers = "".join(f"assign m_{n}_addr = 64'd0 ;\nassign m_{n}_wdata = 8'd{at} ;\nassign m_{n}_we = 1'd1 ;\n" for at, n in enumerate(names_of_memories()))
    trial.put("x.v", COUNTER.replace("output done )", f"output done{ports} )").replace("69999", "1").replace("endmodule", f"{drivers}endmodule"))
    trial.put("d.json", json.dumps({"memories": {n: [0] for n in names_of_memories()}}))
    said = trial.run(["cosim", "x.v", "d.json"])
    cells = "".join(f"memory {n}: {at}\n" for at, n in enumerate(names_of_memories()))
    trial.check_equal("70 memories around a design", (said.status, said.out.decode()), (0, f"stream q: 0 1\n{cells}done 2\n"))


def names_of_memories():
    return [f"a{number}" for number in range(70)]


def try_sources(trial):
    """The same sizes in a source: what a run shows of them, and what its circuit carries."""
    name = "x" * 1000
    trial.put("r.cpp", f"void P(tapa::ostream<int>& q, int n) {{ for (int i = 0; i < n; ++i) q << i; }}\nvoid C(tapa::istream<int>& q, int n) {{ for (int i = 0; i < n; ++i) q.read(); }}\n"
              f"void T(int n) {{ tapa::stream<int, 4096> {name}; tapa::task().invoke(P, {name}, n).invoke(C, {name}, n); }}\n")
    trial.put("d.json", '{"scalars": {"n": 70000}}')
    said = trial.run(["run", "r.cpp", "T", "d.json"])
    tokens = " ".join(map(str, range(70_000)))
    trial.check("a run with 70,000 tokens and a name of 1,000 bytes", (said.status, said.out) == (0, f"stream {name}: {tokens}\ndone 420006\n".encode()), f"   {said.status} {said.out[-30:]} {said.err}")
    trial.put("x.v", trial.run(["build", "r.cpp", "T"]).out)
    trial.put("d.json", '{"scalars": {"n": 3}}')
    said = trial.run(["cosim", "x.v", "d.json"])
    trial.check("its circuit", said.status == 0 and said.out.startswith(f"stream {name}: 0 1 2\ndone ".encode()), f"   {said.status} {said.err}")
    memories = [f"tapa::mmap<int> {n}" for n in names_of_memories()]
    trial.put("r.cpp", f"void F(tapa::mmap<int> m) {{ m[0] += 1; }}\nvoid T({', '.join(memories)}) {{ tapa::task(){''.join(f'.invoke(F, {n})' for n in names_of_memories())}; }}\n")
    trial.put("d.json", json.dumps({"memories": {n: [at] for at, n in enumerate(names_of_memories())}}))
    cells = "".join(f"memory {n}: {at + 1}\n" for at, n in enumerate(names_of_memories())).encode()
    trial.check_that("a run with 70 memories", trial.run(["run", "r.cpp", "T", "d.json"]), lambda said: said.status == 0 and said.out.startswith(cells + b"done "))
    trial.put("x.v", trial.run(["build", "r.cpp", "T"]).out)
    trial.check_that("a circuit with 70 memories", trial.run(["cosim", "x.v", "d.json"]), lambda said: said.status == 0 and said.out.startswith(cells + b"done "))
