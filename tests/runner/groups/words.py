"""The words of a command: what they mean, and words that are not a command, by the tables `cases/words/*.rows`."""
import os
import random

from runner.second import reader
from runner.groups.sources import parts, try_rows

ENDLESS = "void A() { while (true) {} } void T() { tapa::task().invoke(A); }\n"
SHORT = "void A() { } void T() { tapa::task().invoke(A); }\n"

# What the words don't tell, and what is too much to wait for.
DEFAULT = 100_000_000
MANY = 1_000_000

USAGE = "tapa: usage: tapa build|run|cosim|plan|gen|vcd\n"


def wanted_of(source, top, data, limit):
    """What is told where the files are there, the source runs without an end or ends at once, and the data are `{}`."""
    if source == "":
        return 5, "", "tapa: cannot read \n"
    if top != "T":
        return 1, "", f"tapa: {source}:1:1: C1 unknown name\n"
    if data == "":
        return 5, "", "tapa: cannot read \n"
    return (0, "done 1\n", "") if limit >= MANY else (7, "", f"tapa: more than {limit} ticks\n")


def try_read(trial, row):
    _, (words, meaning) = parts(row)
    names, _, limit = meaning.rpartition(" ")
    source, top, *data = names.split("|")
    limit = int(limit)
    for name, text in [(name, "{}") for name in data] + [(source, SHORT if limit >= MANY else ENDLESS)]:
        if name:
            trial.put(name, text)
    said = trial.run(words.split("|"))
    wanted = wanted_of(source, top, data[0] if data else None, limit)
    trial.check(row, (said.status, said.out.decode(), said.err.decode()) == wanted, f"   {said}")
    for name in {source, *data} - {""}:
        os.remove(os.path.join(trial.folder.name, name))


def try_refused(trial, row):
    _, (words,) = parts(row)
    for name in ("s", "d"):
        trial.put(name, SHORT)
    trial.check_that(row, trial.run(words.split("|")), lambda said: (said.status, said.out.decode(), said.err.decode()) == (2, "", USAGE))


# ---- random words, beside a second reader

# A program that makes 203 ticks, and what is no part of the program yet.
COUNTING = "void A() { for (int i = 0; i < 100; ++i) { } } void T() { tapa::task().invoke(A); }\n"
TICKS = 203
DEVICE = '{"rows":1,"cols":1,"slots":[{"LUT":1000,"FF":1000}]}'
FILES = ("s.cpp", "d.json", "e.json", "x.v")
RANDOM_LINES = 300

NAMES = ["s.cpp", "s.cpp", "s.cpp", "T", "T", "d.json", "e.json", "x.v", "x.v", "none", "-", "", "7", "s.cpp=", "=5"]
NUMBERS = ["1", "2", "64", "65", "0", "202", "203", "204", "007", "1000000000000", "1000000000001", "0000000000000000203", "00000000000000000203", "+5", "-5", "5 ", "", "x"]
VALUES = {"--device": ["e.json", "d.json", "none", "-", ""], "--plan": ["fit", "exact", "split", "Fit", ""]}
STRANGE = ["--", "--", "-x", "--step", "--help", "--=5", "---", "--no-balance=", "--vcd=1"]


def option_words(names, draw):
    """An option of these or of another command, as one word or as two."""
    name = draw.choice(names) if draw.random() < 0.9 else draw.choice([name for options in reader.OPTIONS.values() for name in options])
    if not any(options.get(name) for options in reader.OPTIONS.values()):
        return [name]
    value = draw.choice(VALUES.get(name, NUMBERS))
    return [f"{name}={value}"] if draw.random() < 0.5 else [name, value]


def random_words(draw):
    """Words of a command, of which some are out of place."""
    command = draw.choice(sorted(reader.OPTIONS))
    files = {"run": ["s.cpp", "T"], "build": ["s.cpp", "T"], "plan": ["s.cpp", "T", "e.json"], "cosim": ["x.v"], "vcd": ["x.v", "q"], "gen": ["3"]}[command]
    if command in ("run", "cosim") and draw.random() < 0.4:
        files = files + ["d.json"]
    parts = [[word if draw.random() < 0.9 else draw.choice(NAMES)] for word in files]
    names = list(reader.OPTIONS[command])
    chosen = draw.sample(names, draw.randint(0, len(names))) + ([draw.choice(names)] if names and draw.random() < 0.1 else [])
    for name in chosen:
        parts.insert(draw.randint(0, len(parts)), option_words([name], draw))
    if draw.random() < 0.25:
        parts.insert(draw.randint(0, len(parts)), [draw.choice(STRANGE)])
    if draw.random() < 0.1:
        parts.pop(draw.randint(0, len(parts) - 1)) if parts else None
    return [command if draw.random() < 0.97 else draw.choice(["Run", "", "--", "walk"])] + [word for part in parts for word in part]


def other_file(file, wanted, status):
    """The status and the message where a file can't be read, or is another one than the good one of its place; or nothing."""
    if file not in FILES:
        return 5, f"tapa: cannot read {file}\n"
    return None if file == wanted else (status, None)


def source_wanted(source, top):
    """The status and the message that a source and its task get before anything else is read, or nothing."""
    return other_file(source, "s.cpp", 1) or (None if top == "T" else (1, None))


def run_wanted(data, said):
    return other_file(data, "d.json", 3) or ((0, "") if said["--steps"] >= TICKS else (7, f"tapa: more than {said['--steps']} ticks\n"))


def plan_wanted(device):
    return other_file(device, "e.json", 3) or (0, "")


def cosim_wanted(text, data, said, cycles):
    done = (0, "") if said["--cycles"] >= cycles else (7, f"tapa: not done after {said['--cycles']} cycles\n")
    return other_file(text, "x.v", 1) or other_file(data, "d.json", 3) or done


def asked_wanted(words, cycles):
    """The status of these words, and what is told where that is known."""
    asked = reader.read(words)
    if asked is None:
        return 2, USAGE
    command, positionals, said = asked
    if command == "gen":
        return 0, ""
    if command == "cosim":
        return cosim_wanted(*[*positionals, "d.json"][:2], said, cycles)
    if command == "vcd":
        return other_file(positionals[0], positionals[0], 1) or (1, f"tapa: {positionals[0]}:1:1: X1 no dump\n")
    first = source_wanted(*positionals[:2])
    if first is not None:
        return first
    if command == "run":
        return run_wanted([*positionals, "d.json"][2], said)
    if command == "plan":
        return plan_wanted(positionals[2])
    return (0, "") if said["--device"] is None else plan_wanted(said["--device"])


def try_random(trial):
    draw = random.Random(12)
    for name, text in (("s.cpp", COUNTING), ("d.json", "{}"), ("e.json", DEVICE)):
        trial.put(name, text)
    trial.put("x.v", trial.run(["build", "s.cpp", "T"]).out)
    end = trial.run(["cosim", "x.v"]).out.decode().split()
    trial.check("the circuit of random words is done", end[:1] == ["done"], f"   {end}")
    cycles = int(end[-1]) if end[:1] == ["done"] else 0
    taken = 0
    for line in range(RANDOM_LINES):
        words = random_words(draw)
        status, told = asked_wanted(words, cycles)
        said = trial.run(words)
        taken += status != 2
        holds = said.status == status and (told is None or said.err.decode() == told)
        trial.check(f"random words {line}: {' '.join(map(repr, words))}", holds, f"   wanted status {status} {told!r}\n   {said}")
    trial.check("random words of both sorts", RANDOM_LINES // 4 < taken < 3 * RANDOM_LINES // 4, f"   {taken} of {RANDOM_LINES} are read")


def try_all(trial):
    try_rows(trial, "words", {"read": try_read, "refused": try_refused})
    trial.check_that("no words", trial.run([]), lambda said: (said.status, said.err.decode()) == (2, USAGE))
    trial.put("r.cpp", ENDLESS)
    trial.check_that("without --steps", trial.run(["run", "r.cpp", "T"]), lambda said: (said.status, said.err.decode()) == (7, f"tapa: more than {DEFAULT} ticks\n"))
    try_random(trial)
