"""What the tools print for messages and sources whose answer is known: explanations, written-out arrays, data files, signs, and the places to which editors go."""
import json
import os
import re
import shutil
import subprocess
from pathlib import Path

from runner.copied import repository
from runner.trial import ROOT, first_words, read, sources

EXPLAINED = read("tests/cases/files/conditional_read.told")


# A source with streams of several kinds, one of them inside an upper-level task.
SIGNS = read("tests/cases/files/signs.cpp")

# A source whose second task is unknown, the place that is told, and what stands below the message.
ARRAYS = read("tests/cases/files/arrays.cpp")
ARRAYS_TOLD = "2:93"
ARRAYS_SHOWN = read("tests/cases/files/arrays.told")


def try_explain(trial):
    trial.check_equal("explain.py on a place", trial.tool("explain.py", given=EXPLAINED.split("\n")[0] + "\n")[1], EXPLAINED)
    lines = sorted(trial.lines)
    _, told, _ = trial.tool("explain.py", given="".join(line + "\n" for line in lines))
    kept = [line for line in told.splitlines() if not line.startswith("      ") and not re.match(r" +\d+ \| ", line)]
    trial.check_equal("explain.py keeps every line that was told", kept, lines)
    for told, wanted in (("tapa: d.json: J3 scalars.n", "docs/REFUSALS.md, J3"), ("tapa: A$0 waits to write s", "docs/REFUSALS.md, Deadlock"), ("tapa: d.json: K3 B$1", "docs/REFUSALS.md, K3"), ("tapa: no room for A$0", "docs/REFUSALS.md, No plan")):
        trial.check(f"explain.py on {told}", wanted in run_explain(trial, told))
    for code in re.findall(r"`([LAPCV]\d+) ", read("docs/COMMAND.md")):
        told = run_explain(trial, f"tapa: r.cpp:1:1: {code} x")
        trial.check(f"explain.py says why, and what instead, of {code}", told.count("      = ") >= 3, f"   {told}")
    for message in re.findall(r"^\| \d \| `(tapa: .*?)` \|", read("docs/COMMAND.md"), re.M):
        told = message.replace("\\|", "|").replace("LINE:COL: CODE TEXT", "1:1: C1 unknown name")
        trial.check(f"explain.py has a word on {told}", "\n      = " in run_explain(trial, told))
    twice = trial.tool("explain.py", given="tapa: A$0 waits to read q\ntapa: B$1 waits to write r\n")[1]
    trial.check_equal("explain.py names the section on deadlocks once", twice, "tapa: A$0 waits to read q\ntapa: B$1 waits to write r\n      = docs/REFUSALS.md, Deadlock\n")


def run_explain(trial, line):
    return trial.tool("explain.py", given=line + "\n")[1]


def try_written_out(trial):
    """A source's text with its arrays written out, and where a place of it comes from."""
    source = trial.put("w.cpp", ARRAYS)
    said = trial.run(["run", "w.cpp", "T"])
    trial.check_equal("a place of the written-out text", said.err.decode(), f"tapa: w.cpp:{ARRAYS_TOLD}: C1 unknown name\n")
    told = f"tapa: {source}:{ARRAYS_TOLD}: C1 unknown name\n"
    shown = trial.tool("explain.py", given=told)[1]
    trial.check("explain.py shows the line of the source", shown.startswith(told + ARRAYS_SHOWN), f"   {shown}")
    trial.check_equal("explain.py --places", trial.tool("explain.py", "--places", given=f"stream x: 1\n{told}"), (0, f"stream x: 1\ntapa: {source}:2:72: C1 unknown name\n", ""))
    for told in (f"tapa: {source}:2:20: A1 bad count\n", f"tapa: {source}:2:93: L1 byte outside the profile\n", "tapa: none.cpp:2:93: C1 unknown name\n"):
        trial.check_equal(f"explain.py --places keeps {told}", trial.tool("explain.py", "--places", given=told)[1], told)
    _, text, _ = trial.tool("written_out.py", source)
    trial.check("written_out.py writes the elements", text.splitlines()[0] == ARRAYS.splitlines()[0] and "tapa :: stream < int > s_0 , s_1 , s_2 ;" in text.splitlines()[1], f"   {text}")
    trial.check_equal("written_out.py maps a place back", trial.tool("written_out.py", source, "2", "93"), (0, f"{source}:2:72\n", ""))
    source = trial.put("w.cpp", ARRAYS.replace("3", "0"))
    trial.check_equal("written_out.py says what is wrong", trial.tool("written_out.py", source), (1, "", f"tapa: {source}:2:31: A1 bad count\n"))
    for name in ("vector_add.cpp", "run_length.cpp"):
        trial.check_equal(f"{name} has nothing to write out", trial.tool("written_out.py", f"examples/{name}")[1], read(f"examples/{name}"))


def try_data_tools(trial):
    """A template is a data file without faults; signed.py shows each number by its kind."""
    for source in sources("examples"):
        top = first_words(source)[1]
        _, made, err = trial.tool("template.py", source, top, "8")
        said = trial.run(["run", source, top, trial.put("t.json", made), "--steps", "10000"], ROOT)
        trial.check(f"the template of {source} is a data file of it", said.status in (0, 7, 8), f"   {said} {err}")
    for words, status, part in ((["examples/vector_add.cpp", "Add"], 1, "Add invokes no task, so it is no top task: examples/vector_add.cpp has VecAdd"), (["examples/vector_add.cpp", "VecAdd", "65537"], 2, "CELLS: 65537 is no")):
        trial.check_that(f"template.py {' '.join(words)}", trial.tool("template.py", *words), lambda *said: said[:2] == (status, "") and part in said[2])
    said = trial.run(["run", "examples/vector_add.cpp", "VecAdd", "examples/vector_add.json"], ROOT)
    _, shown, _ = trial.tool("signed.py", "examples/vector_add.cpp", "VecAdd", given=said.out.decode())
    wanted = said.out.decode().replace("4294967246", "-50").replace("4294967251", "-45")
    trial.check_equal("a report with signs", shown, wanted)
    source = trial.put("s.cpp", SIGNS)
    said = trial.run(["run", "s.cpp", "T"])
    _, shown, _ = trial.tool("signed.py", source, "T", given=said.out.decode())
    trial.check_equal("signs of kinds, inside tasks too", shown, "stream r: 200 eot\nstream U$0$x: -1 -128\ndone 11\n")
    source = trial.put("s.cpp", SIGNS.replace("tapa::stream<int8_t, 4> x(\"x\")", "tapa::streams<std::int8_t, 1, 4> x(\"x\")").replace(", x)", ", x[0])").replace(", x, r)", ", x[0], r)"))
    said = trial.run(["run", "s.cpp", "T"])
    _, shown, _ = trial.tool("signed.py", source, "T", given=said.out.decode())
    trial.check_equal("signs of an array's kind", shown, "stream r: 200 eot\nstream U$0$x_0: -1 -128\ndone 11\n")

def try_editors(trial):
    pattern = json.loads(read("tools/editors/tasks.json"))["tasks"][0]["problemMatcher"]["pattern"]
    found = re.match(pattern["regexp"], "tapa: a b.cpp:3:31: C8 operation in a conditional place")
    places = [found[pattern[name]] for name in ("file", "line", "column", "message")]
    trial.check_equal("the pattern for Visual Studio Code", places, ["a b.cpp", "3", "31", "C8 operation in a conditional place"])
    if not shutil.which("vim"):
        trial.note("there is no Vim here, so tools/editors/tapa.vim was not tried")
        return
    trial.put("r.cpp", "void T() {\n  x = 1; }\n")
    errors = trial.put("errors", "tapa: r.cpp:2:3: C1 unknown name\n")
    told = os.path.join(trial.folder.name, "told")
    words = ["vim", "-u", "NONE", "-es", "-S", os.path.join(ROOT, "tools/editors/tapa.vim"), f"+cfile {errors}"]
    words += [f"+call writefile([expand('%:t') . ' ' . line('.') . ' ' . col('.')], '{told}')", "+qa!"]
    subprocess.run(words, cwd=trial.folder.name, stdin=subprocess.DEVNULL, capture_output=True, timeout=20, check=False)
    text = open(told, encoding="utf-8").read() if os.path.exists(told) else "nothing"
    trial.check_equal("Vim goes to the place", text, "r.cpp 2 3\n")
    folder = repository(trial, "editor")
    for name in ("tools/editors/tapa.vim", "w.cpp"):
        os.makedirs(os.path.dirname(f"{folder}/{name}"), exist_ok=True)
    shutil.copy(os.path.join(ROOT, "tools/editors/tapa.vim"), f"{folder}/tools/editors/tapa.vim")
    Path(f"{folder}/w.cpp").write_text(ARRAYS, encoding="utf-8")
    words = ["vim", "-u", "NONE", "-es", "-S", f"{folder}/tools/editors/tapa.vim", "+silent make w.cpp T"]
    words += [f"+call writefile([expand('%:t') . ' ' . line('.') . ' ' . col('.')], '{told}')", "+qa!"]
    subprocess.run(words, cwd=folder, stdin=subprocess.DEVNULL, capture_output=True, timeout=20, check=False)
    text = open(told, encoding="utf-8").read() if os.path.exists(told) else "nothing"
    trial.check_equal("Vim's :make goes to the place in the source", text, "w.cpp 2 72\n")
