"""What the system does to a run: files at their limits and past them, long data, full devices, closed pipes, folders as files, words that are not UTF-8, and too little memory."""
from runner import ends
from runner.ends import is_told, is_unwritten
from runner.trial import read

SOURCE_LIMIT = 262_144
DATA_LIMIT = 33_554_432
VERILOG_LIMIT = 16_777_216

PAIR = read("tests/cases/files/pair.cpp")
PAIR_REPORT = b"stream q: 1 2 3\nstream r: 1 2 3\ndone 16\n"
DONE = read("tests/cases/files/done.v")
STOPS = read("tests/cases/files/stops_at_a_token.cpp")
COPY = read("tests/cases/files/copy.cpp")


def padded(source, size):
    """A source of this many bytes whose tasks stand at its end, behind a comment."""
    return "//" + "x" * (size - len(source) - 3) + "\n" + source


def try_source_limit(trial):
    trial.put("r.cpp", padded(PAIR, SOURCE_LIMIT))
    trial.check_that("a source of 262,144 bytes is read whole", trial.run(["run", "r.cpp", "T"]), lambda said: is_told(said, 0, "", PAIR_REPORT))
    trial.put("r.cpp", padded(PAIR, SOURCE_LIMIT + 1))
    said = trial.run(["run", "r.cpp", "T"])
    line = "tapa: r.cpp is longer than 262144 bytes\n"
    trial.check("a source of 262,145 bytes is too long", is_told(said, 7, line), f"   {said}")
    trial.put("r.cpp", "x" * 40_000_000)
    trial.check_that("a source of 40 MB is too long", trial.run(["run", "r.cpp", "T"]), lambda said: is_told(said, 7, line))


def try_verilog_limit(trial):
    """A Verilog text at its limit, most of which is a comment, and one byte more."""
    trial.put("x.v", padded(DONE, VERILOG_LIMIT))
    trial.check_that("a Verilog text of 16,777,216 bytes is read whole", trial.run(["cosim", "x.v"]), lambda said: is_told(said, 0, "", b"done 1\n"))
    trial.put("x.v", padded(DONE, VERILOG_LIMIT + 1))
    trial.check_that("a Verilog text of 16,777,217 bytes is too long", trial.run(["cosim", "x.v"]), lambda said: is_told(said, 7, "tapa: x.v is longer than 16777216 bytes\n"))


def try_long_data(trial):
    """A file of many pieces: every cell is another, so that a piece out of its place shows."""
    trial.put("r.cpp", COPY)
    cells = [str(number * 281_474_976_710_597 % 2**64) for number in range(65_536)]
    trial.put("d.json", '{"memories": {"a": [' + ", ".join(cells) + "]}}")
    said = trial.run(["run", "r.cpp", "T", "d.json"])
    report = f"memory a: {cells[1]} {' '.join(cells[1:])}\ndone 3\n".encode()
    trial.check("65,536 cells that differ are read", is_told(said, 0, "", report), f"   {said}")
    trial.put("d.json", "{" + " " * (DATA_LIMIT - 1))
    trial.check_that("data of 33,554,432 bytes are read", trial.run(["run", "r.cpp", "T", "d.json"]), lambda said: is_told(said, 3, "tapa: d.json: J1\n"))
    trial.put("d.json", "{" + " " * DATA_LIMIT)
    trial.check_that("data of 33,554,433 bytes are too long", trial.run(["run", "r.cpp", "T", "d.json"]), lambda said: is_told(said, 7, "tapa: d.json is longer than 33554432 bytes\n"))


def try_full_device(trial):
    """Where a write fails the status is 6, whatever it would have been."""
    if not ends.has_full(trial):
        return
    trial.put("r.cpp", PAIR)
    trial.put("s.cpp", STOPS)
    for words in (["run", "r.cpp", "T"], ["build", "r.cpp", "T"], ["run", "s.cpp", "T"]):
        trial.check_that(f"the output is full: {words}", ends.full(trial, words, "stdout"), is_unwritten)
    for words in (["run", "s.cpp", "T"], ["run", "r.cpp", "none"], ["run", "none", "T"], [], ["run", "r.cpp", "T", "--steps", "1"]):
        trial.check_that(f"standard error is full: {words}", ends.full(trial, words, "stderr"), lambda said: said.status == 6)
    trial.check_that("nothing is told, so a full error stream does not matter", ends.full(trial, ["run", "r.cpp", "T"], "stderr"), lambda said: is_told(said, 0, "", PAIR_REPORT))


def try_closed_pipe(trial):
    """A pipe that nobody reads any more fails as a full device does; the program is not killed without a word."""
    trial.put("r.cpp", PAIR)
    trial.check_that("nobody reads the output", ends.unread(trial, ["run", "r.cpp", "T"], "stdout"), is_unwritten)
    trial.check_that("nobody reads standard error", ends.unread(trial, ["run", "r.cpp", "none"], "stderr"), lambda said: said.status == 6)


def try_strange_files(trial):
    """A folder cannot be read. A pipe is read as a file is, whole."""
    trial.check_that("a folder", trial.run(["run", "/", "T"]), lambda said: is_told(said, 5, "tapa: cannot read /\n"))
    trial.put("r.cpp", padded(PAIR, 200_000))
    trial.check_that("a pipe", ends.piped(trial, ["run", "r.cpp", "T"], ["r.cpp"]), lambda said: is_told(said, 0, "", PAIR_REPORT))


def try_strange_words(trial):
    """Words that are no UTF-8 are no command, and that is told."""
    usage = "tapa: usage: tapa build|run|cosim|plan|gen|vcd\n"
    trial.check_that("a word that is no UTF-8", trial.run(["run", b"caf\xe9.cpp", "T"]), lambda said: is_told(said, 2, usage))
    trial.put("näme ☃.cpp", PAIR)
    trial.check_that("a name of other letters", trial.run(["run", "näme ☃.cpp", "T"]), lambda said: is_told(said, 0, "", PAIR_REPORT))
    trial.check_that("a top of other letters", trial.run(["run", "näme ☃.cpp", "größer"]), lambda said: is_told(said, 1, "tapa: näme ☃.cpp:1:1: C1 unknown name\n"))


def try_little_memory(trial):
    """Under a limit on memory the run ends well, or says that memory is out; one of the limits is too little."""
    trial.put("r.cpp", COPY)
    cells = " ".join(["12345678901234567890"] * 60_000)
    trial.put("d.json", '{"memories": {"a": [' + cells.replace(" ", ", ") + "]}}")
    report = f"memory a: {cells}\ndone 3\n".encode()
    ends.try_little_memory(trial, ["run", "r.cpp", "T", "d.json"], report, [megabytes << 10 for megabytes in (4, 6, 8, 10, 12, 14, 16, 20, 24, 32, 48, 64, 96, 128)])
