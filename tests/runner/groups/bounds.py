"""Each limit, at the limit and one past it, for every command that reads what is limited. `run` is tried on the tables of tests/cases/sources, tests/cases/data and in endings;
here `build`, `plan` and `cosim` get the same sources and files."""
import json

from runner.groups.endings import DATA_LIMIT, DONE, PAIR, SOURCE_LIMIT, padded
from runner.groups.sources import parts, repeated, table

DEVICE = '{"rows": 1, "cols": 1, "slots": [{"LUT": 4000000000, "FF": 4000000000, "BRAM": 4000000000, "DSP": 4000000000}]}'
ONE = "void F(tapa::mmap<int> m) { m[0] = 1; }\nvoid T(tapa::mmap<int> a) { tapa::task().invoke(F, a); }\n"


def commands():
    """The commands that read a source `r.cpp`, beside `run`."""
    return ["build", "r.cpp", "T"], ["build", "r.cpp", "T", "--device", "dev.json"], ["plan", "r.cpp", "T", "dev.json", "--plan", "fit"]


def try_sources(trial):
    """The limits of a source: what `run` refuses is refused by the same line, and what it takes is built and planned."""
    trial.put("dev.json", DEVICE)
    kind, rows = table("tests/cases/sources/limits.rows")
    for row in rows:
        told, (count, before, part, most, more) = parts(row)
        code, *limit, place = told.split(" ")
        for words in commands():
            trial.put("r.cpp", repeated(before, part, int(count), most))
            trial.check_that(f"{words[0]} at a limit: {row[:120]}", trial.run(words), lambda said: (said.status, said.err) == (0, b"") and said.out != b"")
            trial.put("r.cpp", repeated(before, part, int(count), more))
            said = trial.run(words)
            line = said.err.decode()
            trial.check(f"{words[0]} past a limit: {row[:120]}", (said.status, said.out) == (1, b"") and line.startswith(f"tapa: r.cpp:{place}: {code} ") and line.endswith((limit or [""])[0] + "\n"), f"   {said}")


def try_files(trial):
    """The limits of files: a source, data, a device file, each at its limit and one byte longer."""
    trial.put("dev.json", DEVICE)
    for words in commands():
        trial.put("r.cpp", padded(PAIR, SOURCE_LIMIT))
        trial.check_that(f"{words} of 262,144 bytes", trial.run(words), lambda said: (said.status, said.err) == (0, b"") and said.out != b"")
        trial.put("r.cpp", padded(PAIR, SOURCE_LIMIT + 1))
        said = trial.run(words)
        trial.check_equal(f"{words} of 262,145 bytes", (said.status, said.out, said.err), (7, b"", b"tapa: r.cpp is longer than 262144 bytes\n"))
    trial.put("r.cpp", PAIR)
    trial.put("x.v", DONE)
    for words in commands()[1:]:
        trial.put("dev.json", DEVICE + " " * (DATA_LIMIT - len(DEVICE)))
        trial.check_that(f"{words[0]} with a device file of 33,554,432 bytes", trial.run(words), lambda said: (said.status, said.err) == (0, b"") and said.out != b"")
        trial.put("dev.json", DEVICE + " " * (DATA_LIMIT - len(DEVICE) + 1))
        said = trial.run(words)
        trial.check_equal(f"{words[0]} with a device file of 33,554,433 bytes", (said.status, said.out, said.err), (7, b"", b"tapa: dev.json is longer than 33554432 bytes\n"))
    trial.put("d.json", "{}" + " " * (DATA_LIMIT - 2))
    said = trial.run(["cosim", "x.v", "d.json"])
    trial.check_equal("cosim with data of 33,554,432 bytes", (said.status, said.out, said.err), (0, b"done 1\n", b""))
    trial.put("d.json", "{}" + " " * (DATA_LIMIT - 1))
    said = trial.run(["cosim", "x.v", "d.json"])
    trial.check_equal("cosim with data of 33,554,433 bytes", (said.status, said.out, said.err), (7, b"", b"tapa: d.json is longer than 33554432 bytes\n"))


def cells_of(count):
    return "[" + "0," * (count - 1) + "0]"


def try_memories(trial):
    """The limits of cells, of one memory and of all, for `run` and for `cosim` of the circuit."""
    trial.put("r.cpp", ONE)
    trial.put("x.v", trial.run(["build", "r.cpp", "T"]).out)
    for words in (["run", "r.cpp", "T", "d.json"], ["cosim", "x.v", "d.json"]):
        trial.put("d.json", f'{{"memories": {{"a": {cells_of(65_536)}}}}}')
        trial.check_that(f"{words[0]} with a memory of 65,536 cells", trial.run(words), lambda said: said.status == 0 and said.out.startswith(b"memory a: 1 0 0 "))
        trial.put("d.json", f'{{"memories": {{"a": {cells_of(65_537)}}}}}')
        said = trial.run(words)
        trial.check_equal(f"{words[0]} with a memory of 65,537 cells", (said.status, said.out, said.err), (3, b"", b"tapa: d.json: J4 memories.a\n"))
    names = [f"a{at}" for at in range(17)]
    trial.put("r.cpp", f"void F(tapa::mmap<int> m) {{ m[0] = 1; }}\nvoid T({', '.join(f'tapa::mmap<int> {name}' for name in names)}) {{ tapa::task(){''.join(f'.invoke(F, {name})' for name in names)}; }}\n")
    trial.put("x.v", trial.run(["build", "r.cpp", "T"]).out)
    for words in (["run", "r.cpp", "T", "d.json"], ["cosim", "x.v", "d.json"]):
        for last, wanted in ((0, 0), (1, 3)):
            given = {name: [0] * 65_536 for name in names[:-1]}
            given[names[-1]] = [0] * last
            trial.put("d.json", json.dumps({"memories": given}))
            said = trial.run(words)
            trial.check(f"{words[0]} with {1_048_576 + last:,} cells in all", said.status == wanted and (last == 0 or said.err == f"tapa: d.json: J4 memories.{names[-1]}\n".encode()), f"   {said}")
