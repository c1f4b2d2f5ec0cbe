"""What the system does to `build`, `plan` and `cosim`: full and cut outputs, closed pipes, missing files, folders and pipes as files, reads that fail, and too little memory.
`tests/stress/faults.py PROGRAM` tries more."""
import json
import os

from runner import ends
from runner.ends import is_told, is_unwritten
from runner.made import refusals
from runner.trial import read

SOURCE = read("tests/cases/files/faults.cpp")
DATA = '{"memories": {"a": [7, 8, 9]}}'
DEVICE = '{"rows": 1, "cols": 2, "slots": [{"LUT": 900, "FF": 900}, {"LUT": 900, "FF": 900}], "pins": {"P$0": [0, 0], "C$1": [0, 1]}}'
SMALL = '{"rows": 1, "cols": 1, "slots": [{}]}'
REPORT = b"stream q: 7 8 9\nmemory a: 7 8 9\n"

# Each command that writes to the output, by its files.
WHOLE = [["cosim", "x.v", "d.json"], ["build", "r.cpp", "T"], ["build", "r.cpp", "T", "--device", "v.json"], ["plan", "r.cpp", "T", "v.json"], ["plan", "r.cpp", "T", "v.json", "--plan", "exact"]]

# Commands that are refused, by what they then tell.
REFUSED = dict(json.loads(read("tests/cases/files/refused.json")))


def put_files(trial):
    for name, text in (("r.cpp", SOURCE), ("no.cpp", "return"), ("d.json", DATA), ("v.json", DEVICE), ("small.json", SMALL), ("no.json", "[]"), ("no.v", "no")):
        trial.put(name, text)
    trial.put("x.v", trial.run(["build", "r.cpp", "T"]).out)


def try_refused(trial):
    """Each refusal with its status, and with status 6 where it cannot be told."""
    for line, words in REFUSED.items():
        status = 4 if "room" in line or "plan" in line else 3 if ": J" in line else 1
        trial.check_that(f"{words} is refused", trial.run(words), lambda said: is_told(said, status, line.rstrip(" ")))
        if ends.has_full(trial):
            trial.check_that(f"standard error is full: {words}", ends.full(trial, words, "stderr"), lambda said: (said.status, said.out) == (6, b""))


def try_full(trial, words, whole):
    """The output is full, nobody reads it any more, or it ends after some bytes: status 6, and a front of the text."""
    if ends.has_full(trial):
        trial.check_that(f"the output is full: {words}", ends.full(trial, words, "stdout"), is_unwritten)
    trial.check_that(f"nobody reads the output: {words}", ends.unread(trial, words, "stdout"), is_unwritten)
    for most in (0, 1, len(whole) // 2, len(whole) - 1):
        trial.check_that(f"the output ends after {most} bytes: {words}", ends.cut(trial, words, most), lambda said: said.status == 6 and whole.startswith(said.out) and len(said.out) <= most)


def try_undone(trial):
    """A simulation past its cycles leaves its report and status 7; where the report or the message cannot be written, 6."""
    words = ["cosim", "x.v", "d.json", "--cycles", "2"]
    said = trial.run(words)
    wanted = (7, b"stream q:\nmemory a: 7 8 9\nrunning 2\n", b"tapa: not done after 2 cycles\n")
    trial.check_equal("a simulation past its cycles", (said.status, said.out, said.err), wanted)
    if ends.has_full(trial):
        trial.check("its report cannot be written", is_unwritten(ends.full(trial, words, "stdout")))
        trial.check_that("its message cannot be written", ends.full(trial, words, "stderr"), lambda said: (said.status, said.out) == (6, wanted[1]))


def try_pipes(trial, words, whole):
    """Each file, and all at once, as a pipe: it is read once, whole, and in its turn."""
    files = [word for word in words if "." in word]
    for chosen in [*([file] for file in files), files]:
        trial.check_that(f"{chosen} as pipes: {words}", ends.piped(trial, words, chosen), lambda said: is_told(said, 0, "", whole))


def try_unread(trial, words):
    """A file that is not there, a folder, and a file of which the system refuses to read: status 5, and nothing is written."""
    for word in [word for word in words if "." in word]:
        for other in ("none", "/", *(["/proc/self/mem"] if os.path.exists("/proc/self/mem") else [])):
            named = [other if it == word else it for it in words]
            trial.check_that(f"{named}", trial.run(named), lambda said: is_told(said, 5, f"tapa: cannot read {other}\n"))


def try_all(trial):
    put_files(trial)
    try_refused(trial)
    try_undone(trial)
    for words in WHOLE:
        said = trial.run(words)
        trial.check(f"{words}", said.status == 0 and said.err == b"" and (words[0] != "cosim" or said.out.startswith(REPORT)), f"   {said}")
        try_full(trial, words, said.out)
        try_pipes(trial, words, said.out)
        try_unread(trial, words)
    refusals.try_allocations(trial, 10)
    put_large(trial)
    for words in (["cosim", "l.v", "l.json"], ["build", "l.cpp", "T"], ["build", "l.cpp", "T", "--device", "l_device.json"], ["plan", "l.cpp", "T", "l_device.json"]):
        ends.try_little_memory(trial, words, trial.run(words).out, [256 * quarter for quarter in (*range(8, 40), 48, 64, 128, 256, 512)])


def put_large(trial):
    """A source, data and a device that take some megabytes."""
    names = [f"q{number}" for number in range(250)]
    pairs = "".join(f".invoke(P, {name}).invoke(C, {name})" for name in names)
    trial.put("l.cpp", "void P(tapa::ostream<int>& q) { for (int i = 0; i < 20; ++i) q << i; }\nvoid C(tapa::istream<int>& q) { for (int i = 0; i < 20; ++i) q.read(); }\n"
              f"void T() {{ {''.join(f'tapa::stream<int, 2000> {name}; ' for name in names)}tapa::task(){pairs}; }}\n")
    trial.put("l_device.json", '{"rows": 1, "cols": 1, "slots": [{"LUT": 4000000000, "FF": 4000000000}], "percent": 100, "pins": {}}')
    trial.put("l.v", trial.run(["build", "l.cpp", "T"]).out)
    trial.put("l.json", "{" + " " * 2_000_000 + "}")
