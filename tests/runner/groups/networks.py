"""`gen`: the numbers of generated networks, computed in Python, and what `run`, `build` and `cosim` report for the same programs. Words that are not a number of layers are
refused."""
from runner import ends
from runner.trial import each, read

USAGE = "tapa: usage: tapa build|run|cosim|plan|gen|vcd\n"

# The most layers.
MOST = 126
# Those of which the network is run, too.
WHOLE = (0, 1, 7, MOST)

TASKS = read("tests/cases/files/layers.cpp")


def network(layers):
    """The program of a network, written here on lines of its own."""
    streams = [f"tapa::stream<uint64_t> {letter}{layer}_{place};" for layer in range(layers + 1) for place in range(4) for letter in "ab"]
    chain = [f".invoke(Src, a0_{place}, b0_{place})" for place in range(4)]
    for layer in range(1, layers + 1):
        for place in range(4):
            chain.append(f".invoke(Mid, a{layer - 1}_{place}, b{layer - 1}_{(place + 3) % 4}, a{layer}_{place}, b{layer}_{place})")
    chain += [f".invoke(Dst, a{layers}_{place}, b{layers}_{(place + 3) % 4})" for place in range(4)]
    return TASKS + "void Gen() {\n" + "\n".join(streams) + "\ntapa::task()\n" + "\n".join(chain) + ";\n}\n"


def numbers(layers):
    """The tasks, streams, ticks, tokens and their sum. Tick by tick a task that writes makes 403, one between 703 and one that reads 504; the number i is
    doubled in every layer."""
    tasks, streams = 4 * (layers + 2), 8 * (layers + 1)
    ticks = 4 * 403 + 4 * layers * 703 + 4 * 504
    total = sum(8 * sum((i << layer) % 2**64 for i in range(100)) for layer in range(layers + 1)) % 2**64
    return {"tasks": tasks, "streams": streams, "ticks": ticks, "tokens": 100 * streams, "sum": total}


def summary_of(said):
    """The words of a summary's lines and their numbers, or nothing where it is none."""
    lines = [line.split(" ") for line in said.out.decode().splitlines()]
    return {line[0]: int(line[1]) for line in lines} if said.status == 0 and all(len(line) == 2 and line[1].isdecimal() for line in lines) else None


@each(it for it in range(MOST + 1) if it not in WHOLE)
def try_summary(trial, layers):
    """The numbers that `gen` tells, without its cycles, and these; nothing where it tells no summary."""
    said = trial.run(["gen", str(layers)])
    told = summary_of(said)
    trial.check(f"gen {layers} tells a summary", told is not None and list(told) == ["tasks", "streams", "ticks", "tokens", "sum", "cycles"] and said.err == b"", f"   {said}")
    if told is None:
        return None, 0
    cycles = told.pop("cycles")
    trial.check_equal(f"the numbers of gen {layers}", told, numbers(layers))
    return told, cycles


@each(WHOLE)
def try_numbers(trial, layers):
    told, cycles = try_summary(trial, layers)
    if told is None:
        return
    trial.put("n.cpp", network(layers))
    report = trial.run(["run", "n.cpp", "Gen"]).out.decode().splitlines()
    tokens = [int(token) for line in report[:-1] for token in line.split(": ", 1)[1].split()]
    trial.check_equal(f"what run tells of the network of {layers} layers", (len(report) - 1, report[-1] if report else "", len(tokens), sum(tokens) % 2**64), (told["streams"], f"done {told['ticks']}", told["tokens"], told["sum"]))
    trial.put("n.v", trial.run(["build", "n.cpp", "Gen"]).out)
    report = trial.run(["cosim", "n.v"]).out.decode().splitlines()
    trial.check_equal(f"what cosim tells of its circuit, {layers} layers", (len(report) - 1, report[-1] if report else ""), (told["streams"], f"done {cycles}"))


def try_workers(trial):
    wanted = trial.run(["gen", "2"])
    for words in (["gen", "2", "--workers", "64"], ["gen", "--workers=3", "2"], ["gen", "--", "2"], ["gen", "0000000000000000002"]):
        said = trial.run(words)
        trial.check_equal(f"the same by {' '.join(words)}", (said.status, said.out, said.err), (0, wanted.out, b""))


def try_refused(trial):
    for words in ([], [str(MOST + 1)], ["7", "8"], ["-1"], [""], ["x"], ["7", "--workers", "0"], ["7", "--workers", "65"], ["7", "--workers"], ["7", "--steps", "5"], ["7", "--workers=1", "--workers=1"]):
        trial.check_that(f"gen {' '.join(words)} is no command", trial.run(["gen", *words]), lambda said: (said.status, said.out, said.err.decode()) == (2, b"", USAGE))


def try_full_device(trial):
    if ends.has_full(trial):
        trial.check_that("the output is full of a summary", ends.full(trial, ["gen", "1"], "stdout"), ends.is_unwritten)


def try_little_memory(trial):
    """Under a limit on memory the summary is written, or nothing is and memory is out; one of the limits is too little."""
    sizes = [megabytes << 10 for megabytes in (4, 6, 8, 10, 12, 14, 16, 20, 24, 32, 48, 64, 96, 128, 256)]
    ends.try_little_memory(trial, ["gen", "7"], trial.run(["gen", "7"]).out, sizes, lambda out: not out)
