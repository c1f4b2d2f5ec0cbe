"""`tools/explain.py`: it finds each row of the page From TAPA by its construct, and no construct in a source that is accepted; and the tables of `cases/explanations/`. Every
place of two sources is explained."""
import glob
import json
import os
import re
import shlex

from runner.groups import documents
from runner.groups.sources import context, table
from runner.trial import ROOT, CASES, read, sources
from vechaqir.explain import explainer as explaining, messages, pages, refusals, usage
from vechaqir.host.program import Program
from vechaqir.language import patterns, source
from vechaqir.language.matching import View

# What no explanation says where it knows the cause, and what none says at all.
GENERAL, NEVER = "no source of the language goes on with", "no explanation: "

DATA_TOP = read("tests/cases/files/of_data.cpp")
PLAN_TOP = read("tests/cases/files/of_plan.cpp")


def quoted(row):
    r"""The texts of a row between ` and `, in which \` is a `."""
    return [it.replace("\\\\", "\\").replace("\\`", "`").replace("\\n", "\n") for it in re.findall(r"`((?:[^`\\]|\\.)*)`", row)]


def explained(trial, words):
    """The status of a command, and its messages with all that is explained, as one text."""
    said = trial.run(words)
    explainer = explaining.Explainer(explaining.Command(words), Program(trial.program, False))
    lines = []
    for line in said.err.decode().splitlines():
        lines += [line, *explainer.safely(line)]
    return said.status, "\n".join(lines + explainer.ended())


def try_construct(trial, row):
    """A row of docs/FROM_TAPA.md: its refused text is explained by this row, and by no other."""
    before, after = context(row.context)
    trial.put("e.cpp", before + row.refused + after)
    _, told = explained(trial, ["run", os.path.join(trial.folder.name, "e.cpp"), "T"])
    first = next((line for line in told.splitlines() if line.startswith("      = ")), "")
    trial.check(f"the explanation of {row.refused}", is_of_row(row, first, told), f"   wanted {row.construct}\n   {told}")


def is_of_row(row, first, told):
    named = first.startswith(f"      = {row.construct}: ")
    return (named or f'docs/FROM_TAPA.md, "{row.section}"' in told) and f"      = instead: write {row.first}" in told


def try_constructs(trial):
    """The rows of docs/FROM_TAPA.md and the patterns are of the same constructs, and each row is found by its pattern."""
    rows = pages.rows()
    trial.check("docs/FROM_TAPA.md has rows", len(rows) >= 100, f"   {len(rows)}")
    missing = sorted({it.construct for it in patterns.TABLE} - set(rows))
    trial.check("each pattern has a row in docs/FROM_TAPA.md", not missing, f"   {missing}")
    for row in rows.values():
        try_construct(trial, row)


def try_faulty(trial):
    """The rows of tests/cases/explanations: refused sources, each with its place and what is said of it."""
    count = 0
    for path in sorted(glob.glob(os.path.join(CASES, "explanations", "*.rows"))):
        kind, rows = table(os.path.relpath(path, ROOT))
        if not kind.startswith("in "):
            continue
        before, after = context(kind[len("in "):])
        for row in rows:
            refused, wanted = quoted(row)
            trial.put("e.cpp", before + refused + after)
            _, told = explained(trial, ["run", os.path.join(trial.folder.name, "e.cpp"), "T"])
            place = re.match(r"tapa: .*?:(\d+:\d+): ([A-Z]\d+)", told)
            is_told = place and f"{place[2]} {place[1]}" == row.split(" `")[0]
            trial.check(f"the explanation of {refused}", is_told and wanted in told and GENERAL not in told and NEVER not in told, f"   {told}")
            count += 1
    trial.check("there are 120 faulty sources", count >= 120, f"   {count}")


def legal_sources():
    """Sources without a construct of the table: those that are accepted, and those that rules refuse which no construct breaks."""
    yield from map(read, sources("examples", "tests/cases/circuits", "tests/measure/speed"))
    for row in pages.rows().values():
        before, after = context(row.context)
        yield before + row.accepted + after
    for _, _, body in documents.sections("docs/REFUSALS.md"):
        for name, text in re.findall(r"^```cpp\n// (\w+): instead\n([^`]*)^```$", body, re.M):
            before, after = context(name)
            yield before + text + after


def try_legal(trial):
    """No pattern stands in a source that is accepted, so that none is found by a bare sign."""
    for text in legal_sources():
        view = View(source.parse(text.encode()))
        standing = [(it.construct, view.text(at)) for at in range(len(view.words) + 1) for it in patterns.standing(view, at)]
        trial.check(f"no construct in {text[-200:]}", not standing, f"   {standing}")


def try_words(trial):
    """Wrong commands: the wrong word is named, and the command is shown with each of its options."""
    for row in table("tests/cases/explanations/words.rows")[1] + [table("tests/cases/explanations/words.rows")[0]]:
        words, wanted = quoted(row)
        status, told = explained(trial, shlex.split(words))
        name = words.split(" ")[0]
        known = usage.commands().get(name)
        shown = known is None or all(it in told for it in known.options) and known.synopsis in told
        trial.check(f"what is wrong with `tapa {words}`", status == 2 and wanted in told and shown, f"   {told}")
    for command in usage.commands().values():
        trial.check(f"docs/COMMAND.md has a row for each word of `{command.name}`", len(usage.words_of(command)) == len(command.words + command.more) + len(command.options))


def try_data(trial):
    """Refused data files and device files."""
    trial.put("e.cpp", DATA_TOP)
    for row in ["", *table("tests/cases/explanations/data.rows")[1], table("tests/cases/explanations/data.rows")[0]]:
        if row:
            data, wanted = quoted(row)
            words = ["run", os.path.join(trial.folder.name, "e.cpp"), "T"] + [trial.put("e.json", data)] * bool(data)
            trial.check_that(f"the explanation of {data}", explained(trial, words), lambda status, told: status == 3 and wanted in told and NEVER not in told)
    trial.put("e.cpp", PLAN_TOP)
    for row in [*table("tests/cases/explanations/devices.rows")[1], table("tests/cases/explanations/devices.rows")[0]]:
        data, wanted = quoted(row)
        status, told = explained(trial, ["plan", os.path.join(trial.folder.name, "e.cpp"), "T", trial.put("e.json", data)])
        trial.check(f"the explanation of {data}", status == 3 and wanted in told and NEVER not in told, f"   {told}")


def try_plans(trial):
    """Where there is no plan, the resource that is short is told in each mode."""
    text = PLAN_TOP.replace("q << 1;", "q << 1; for (int i = 0; i < 9; ++i) { int x = i * 5; }")
    device = trial.put("e.json", '{"rows": 2, "cols": 1, "slots": [{"LUT": 1000, "FF": 2000}, {"LUT": 1000, "FF": 2000}]}')
    for mode in ("fit", "exact", "split"):
        _, told = explained(trial, ["plan", trial.put("e.cpp", text), "T", device, "--plan", mode])
        trial.check(f"what is short where `--plan {mode}` has no plan", "P$0 needs 3 DSP, and no slot has more than 0" in told and NEVER not in told, f"   {told}")


def try_dumps(trial):
    """A net that a dump has not leads to one that it has."""
    trial.put("e.cpp", PLAN_TOP)
    trial.put("e.v", trial.run(["build", "e.cpp", "T"]).out)
    _, told = explained(trial, ["vcd", trial.put("e.vcd", trial.run(["cosim", "e.v", "--vcd"]).out), "s_q_rd"])
    trial.check("a net that is not there", "the dump has no net `s_q_rd`: it has 13 nets, `rst`, `done`" in told, f"   {told}")


def try_ends(trial):
    """Runs that stop or pass a limit: tests/cases/explanations/ends.cases."""
    for case in read("tests/cases/explanations/ends.cases").split("=== ")[1:]:
        name, _, rest = case.partition("\n")
        text, _, wanted = rest.partition("---\n")
        trial.put("e.cpp", text)
        _, told = explained(trial, ["run", os.path.join(trial.folder.name, "e.cpp"), "T", "--steps", "1000"])
        trial.check(f"what is said of {name}", all(it in told for it in wanted.splitlines()) and wanted and NEVER not in told, f"   {told}")


def try_other_files(trial):
    """Files of another sort than the command takes, or that can't be read, a header that is skipped, a top task that is not there, and a dump's name behind `--vcd`."""
    trial.put("k.h", "const int LANES = 4;\n")
    texts = {"source": PLAN_TOP, "leaf": "void F(int n) { }\n", "empty": "", "top": "void F(int n) { }\nvoid Top(int n) { tapa::task().invoke(F, n); }\n", "data_source": DATA_TOP,
             "header": '#include "k.h"\nvoid F(int n) { n = LANES; }\nvoid Top(int n) { tapa::task().invoke(F, n); }\n'}
    paths = {name: trial.put(f"{name}.cpp", text) for name, text in texts.items()}
    paths |= {"folder": trial.folder.name, "data": trial.put("e.json", '{"scalars": {"rows": 3}}'), "text": trial.put("e.v", trial.run(["build", paths["source"], "T"]).out)}
    paths["dump"] = trial.put("e.vcd", trial.run(["cosim", paths["text"], "--vcd"]).out)
    for words, wanted in json.loads(read("tests/cases/explanations/files.json")):
        trial.check_that(f"the explanation of `tapa {words}`", explained(trial, words.format(**paths).split()), lambda _, told: wanted.format(**paths) in told and NEVER not in told)


def try_fronts(trial):
    """Every front part of two sources, and each place of them, can be explained: whatever is told, there is an explanation, and none fails."""
    whole = read("examples/lanes.cpp") + "void G(float x) { int y[N + 1] = {1, 2}; a.b = c->d; for (auto e : f) return; }\n"
    failed = []
    text = whole.encode()
    told = source.parse(text)
    for code in ("L1", "L3", "A1", "A2", "A3", "P1", "P2", *(f"C{number}" for number in range(1, 13))):
        for offset in range(0, len(text), 5):
            why, lines = refusals.explained(told, told.place(offset), code, "over the limit of 4096", "Squares", "in_0")
            failed += [(code, offset)] * (not lines)
    for end in range(0, len(text), 23):
        explainer = explaining.Explainer(explaining.Command(["run", trial.put("e.cpp", text[:end]), "Squares"]))
        place = source.parse(text[:end]).place(end)
        lines = explainer.safely(f"tapa: {trial.folder.name}/e.cpp:{place.line}:{place.column}: P1 unexpected token")
        failed += [("P1", end)] * (not lines or NEVER in lines[0])
    trial.check("each place can be explained", not failed, f"   {failed[:10]}")
    for line in ("tapa: ", "tapa: x", "tapa: a:1:2: Z9 x", "tapa: a:99999999999999999999:2: C1 x", "", "\udcff", "tapa: A$0 waits to read ", "tapa: usage: x"):
        lines = explaining.Explainer(explaining.Command(None)).safely(line)
        trial.check(f"a line like {line!r} is passed", not any(NEVER in it for it in lines) and (messages.parse(line) is not None or not lines))
