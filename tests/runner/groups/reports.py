"""What `tools/report.py` makes of runs: signs, shortened streams, ticks, accesses past the end of a memory, JSON, and comparisons."""
import json

from runner.trial import ROOT, read

# Two detached tasks in a row, and a stream of a hundred tokens.
DETACHED = read("tests/cases/files/detached.cpp")
# The last line reads past the end in the arm that is not chosen, which does not matter.
ARRAY = read("tests/cases/files/past_the_end.cpp")
VECTORS = ("examples/vector_add.cpp", "VecAdd", "examples/vector_add.json")


def try_lines(trial):
    """Signs, notes, long streams, ticks by task, and a report that is read."""
    status, out, err = trial.tool("report.py", *VECTORS)
    trial.check("signed numbers and ticks by task", status == 0 and "stream b_q: 10 20 30 40 -50\n" in out and out.endswith("Add$2 28, Stream2Mmap$3 23; the circuit takes 33 cycles\n"), out + err)
    source = trial.put("d.cpp", DETACHED)
    shown = dict(line.split(":", 1) for line in trial.tool("report.py", source, "T")[1].splitlines() if ":" in line)
    trial.check_equal("a long stream", shown["stream q [100]"], " 0 -1 -2 -3 -4 -5 -6 -7 -8 -9 -10 -11 .. 76 more .. -88 -89 -90 -91 -92 -93 -94 -95 -96 -97 -98 -99")
    trial.check_equal("a stream between detached tasks", shown["stream between"], " (not shown: its reader is detached)")
    whole = trial.tool("report.py", source, "T", "--long", "--no-circuit")[1].splitlines()
    trial.check_equal("a long stream, whole", len(whole[0].split()), 102)
    ran = trial.run(["run", *VECTORS], ROOT).out.decode()
    trial.check_equal("a report that is read", trial.tool("report.py", *VECTORS[:2], "--from", "-", given=ran), (0, ran.replace("4294967246", "-50").replace("4294967251", "-45"), ""))
    stopped = trial.tool("report.py", "examples/too_shallow.cpp", "TooShallow")
    trial.check("a run that stops", stopped[0] == 8 and stopped[2] == "tapa: Producer$0 waits to write data\ntapa: Consumer$1 waits to read ready\n" and "stopped 1" in stopped[1], f"   {stopped}")
    trial.check("a circuit that stands still", "Consumer$1 0; the circuit is not done after " in stopped[1] and stopped[1].endswith(" cycles; its last tick was made in cycle 1\n"), f"   {stopped}")


def try_past_end(trial):
    """Each access past the end of a memory or an array, with its line."""
    words = ("tests/cases/circuits/features.cpp", "Top", "tests/cases/circuits/features.json")
    told = [line for line in trial.tool("report.py", *words)[1].splitlines() if line.startswith("past the end: ")]
    wanted = ["past the end: Keep$1 stores nothing to half[6] and 2 more, line 28", "past the end: Keep$1 loads 0 from half[6] and 2 more, line 29", "past the end: Keep$1 loads 0 from table[7] and 5 more, line 29"]
    trial.check_equal("accesses past a memory's end", told, wanted)
    words = (trial.put("a.cpp", ARRAY), "T", trial.put("a.json", '{"memories": {"m": [0, 0]}}'))
    told = [line for line in trial.tool("report.py", *words)[1].splitlines() if line.startswith("past the end: ")]
    wanted = ["past the end: F$0 writes nothing to a[4] and 1 more, line 3", "past the end: F$0 reads 0 from a[4] and 1 more, line 4", "past the end: F$0 stores nothing to m[2] and 3 more, line 4"]
    trial.check_equal("accesses past an array's end, but not those that a condition leaves out", told, wanted)


def try_json(trial):
    """The report as JSON, and what is expected beside it."""
    found = json.loads(trial.tool("report.py", *VECTORS, "--json")[1])
    trial.check_equal("a report as JSON", (found["streams"]["b_q"], found["memories"]["c"], found["end"], found["ticks"]["Add$2"]), ([10, 20, 30, 40, -50], [11, 22, 33, 44, -45], "done", 28))
    cases = [
        ({"memories": {"c": [11, 22, 33, 44, -45]}, "end": "done"}, 0, ""),
        ({"memories": {"c": [11, 22, 3, 44, -45]}}, 1, "c: cell 2 is 33, and 3 is expected"),
        ({"streams": {"a_q": [1, 2]}}, 1, "a_q: 5 tokens, and 2 are expected"),
        ({"streams": {"z": []}}, 1, "there is no stream z"),
        ({"end": "stopped"}, 1, "the end is done, and stopped is expected"),
    ]
    for wanted, status, told in cases:
        ran = trial.tool("report.py", *VECTORS, "--no-circuit", "--expect", trial.put("e.json", json.dumps(wanted)))
        trial.check_equal(f"what is expected: {wanted}", (ran[0], ran[2]), (status, f"tools/report.py: {told}\n" if told else ""))
    for words, status in ((["--help"], 0), ([], 2), (["a.cpp", "T", "--shrt"], 2), (["none.cpp", "T"], 1), ([*VECTORS, "--expect", trial.put("e.json", "[]")], 1)):
        ran = trial.tool("report.py", *words)
        trial.check(f"report.py {' '.join(words)}", ran[0] == status and "Traceback" not in ran[2], f"   {ran}")
