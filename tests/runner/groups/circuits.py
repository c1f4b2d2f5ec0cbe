"""The circuit of each example: in a simulation it carries what the run shows, also with memories that are not always ready."""
import json
import random
import re

from runner.groups.examples import names
from runner.trial import ROOT, data_of, each, first_words, read

# The cycles after which an example that comes to a stop carries nothing more.
ENOUGH = "2000"
SEEDS = (1, 2)


def parts_of(report):
    """The streams and memories of a report with what they show, and its last line."""
    lines = report.decode().splitlines()
    cut = [line.partition(":") for line in lines[:-1]]
    return {name: shown.split() for name, _, shown in cut}, lines[-1] if lines else ""


def with_waits(data, seed):
    """Data whose memories are ready at random."""
    chosen = random.Random(seed)
    memories = data.get("memories", {})
    return {**data, "waits": {name: [chosen.randrange(2) for _ in range(300)] for name in memories}}


def is_front(some, all_of_them):
    return all_of_them[: len(some)] == some


def agree(shown, carried, has_detached):
    """What a run shows of each part is what the text carries. What a detached instance writes goes on until `done` is raised."""
    if list(shown) != list(carried):
        return False
    return all(shown[name] == carried[name] or has_detached and (is_front(shown[name], carried[name]) or is_front(carried[name], shown[name])) for name in shown)


def try_text(trial, name, words, data, ran, about):
    """The text of an example, simulated on some data, beside its run."""
    trial.put("d.json", json.dumps(data))
    said = trial.run(["cosim", "x.v", "d.json", *([] if ran.status == 0 else ["--cycles", ENOUGH])])
    shown, _ = parts_of(ran.out)
    carried, last = parts_of(said.out)
    detached = "detach" in read(words[1])
    ends = said.status == 0 and last.startswith("done ") if ran.status == 0 else said.status == 7 and last == f"running {ENOUGH}"
    trial.check(f"{name} {about}", ends and agree(shown, carried, detached), f"   run: {ran}   cosim: {said}")


@each(lambda: names())
def try_circuit(trial, name):
    words = ["run", *first_words(f"{name}.cpp")]
    ran = trial.run(words, ROOT)
    built = trial.run(["build", words[1], words[2]], ROOT)
    if ran.status not in (0, 8):
        trial.check(f"{name} is refused alike", (built.status, built.out, built.err) == (ran.status, b"", ran.err), f"   {built}")
        return
    whole = (built.status, built.err) == (0, b"") and built.out.endswith(b"endmodule\n")
    trial.check(f"{name} is built", whole, f"   {built}")
    trial.put("x.v", built.out)
    data = data_of(words)
    try_text(trial, name, words, data, ran, "simulated")
    for seed in SEEDS if data.get("memories") else ():
        try_text(trial, name, words, with_waits(data, seed), ran, f"with memories that are not always ready, {seed}")


def try_legend(trial):
    """Each net of a task's module, in the texts of the examples and of the features, is in the legend of docs/CIRCUIT.md, with as many numbers."""
    legend = read("docs/CIRCUIT.md").partition("## A task's nets")[2].partition("\n## ")[0]
    known = {re.sub(r"_[A-Z]\b|_[A-Z](?=_)", "_#", name) for name in re.findall(r"`([a-z]+(?:_[A-Z])*)`", legend)}
    for source, top in [(f"examples/{it}.cpp", None) for it in ("vector_add", "stencil", "run_length")] + [("tests/cases/circuits/features.cpp", "Top"), ("tests/cases/circuits/states.cpp", "T")]:
        top = top or first_words(source)[1]
        leaves = re.findall(r"^module t_.*?^endmodule$", trial.run(["build", source, top], ROOT).out.decode(), re.M | re.S)[:-1]
        nets = {re.sub(r"_\d+\b|_\d+(?=_)", "_#", name) for leaf in leaves for name in re.findall(r"(?:wire|reg|input|output) (?:\[[^]]*\] )?([a-z]\w*)", leaf)}
        trial.check_equal(f"nets of {source} that are not in the legend", nets - known - {"clk", "rst"}, set())
