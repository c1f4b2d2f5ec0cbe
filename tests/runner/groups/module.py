"""The Python module `vechaqir`: the tests in `tests/cases/python/`, with the gallery compared with plain Python and numpy, the script, the sessions and the property test of the
page Python, and `mypy --strict`. pytest runs the tests, or unittest if pytest is not installed."""
import os
import re
import shutil
import subprocess
import sys

from runner.trial import ROOT, read

# Interpreters of which the first that has a module is taken: the one that runs this, and the system's own, which has Debian's packages.
INTERPRETERS = [sys.executable, "/usr/bin/python3"]


def interpreter_with(module):
    for path in dict.fromkeys(INTERPRETERS):
        if os.access(path, os.X_OK) and subprocess.run([path, "-c", f"import {module}"], capture_output=True, check=False).returncode == 0:
            return path
    return None


def run_python(trial, words, folder=ROOT):
    environment = {**os.environ, "TAPA": trial.program, "PYTHONPATH": os.path.join(ROOT, "tools"), "PYTHONDONTWRITEBYTECODE": "1"}
    ran = subprocess.run(words, cwd=folder, env=environment, stdin=subprocess.DEVNULL, stdout=subprocess.PIPE, stderr=subprocess.STDOUT, text=True, check=False)
    return ran.returncode, ran.stdout


def try_tests(trial):
    """The tests by pytest where it is there, and else by unittest, which Python has."""
    pytest = interpreter_with("pytest")
    words = [pytest, "-m", "pytest", "-q", "-p", "no:cacheprovider", "tests/cases/python"] if pytest else [sys.executable, "-m", "unittest", "discover", "-s", "tests/cases/python"]
    status, said = run_python(trial, words)
    trial.check(f"tests/cases/python by {'pytest' if pytest else 'unittest'}", status == 0, said[-3000:])
    if not pytest:
        trial.note("there is no pytest here, so unittest was taken")


def try_examples(trial):
    """The script of docs/PYTHON.md, and the property test where hypothesis is there."""
    status, said = run_python(trial, [sys.executable, "examples/python/compare.py"])
    trial.check("examples/python/compare.py", status == 0 and re.fullmatch(r"PASS, \d+ ticks, by the (un)?proved program\n", said), said)
    page = read("docs/PYTHON.md")
    for name in ("compare.py", "test_vector_add.py"):
        body = read(f"examples/python/{name}").partition('"""\n')[2].partition('"""\n')[2] or read(f"examples/python/{name}").split('"""\n', 1)[1]
        trial.check(f"docs/PYTHON.md shows examples/python/{name}", body.strip() in page)
    hypothesis = interpreter_with("hypothesis, pytest")
    if not hypothesis:
        trial.note("there is no hypothesis here, so the property test of examples/python was not tried")
        return
    status, said = run_python(trial, [hypothesis, "-m", "pytest", "-q", "-p", "no:cacheprovider", "examples/python"])
    trial.check("the property test of examples/python", status == 0, said[-3000:])


def try_page(trial):
    """The sessions of docs/PYTHON.md, whose lines behind `>>>` give what stands below them."""
    words = [sys.executable, "-m", "doctest", os.path.join(ROOT, "docs", "PYTHON.md")]
    status, said = run_python(trial, words)
    trial.check("the sessions of docs/PYTHON.md", status == 0 and read("docs/PYTHON.md").count(">>>") >= 10, said[-3000:])


def try_gallery_table(trial):
    """The costs and cycles that examples/README.md tells of the gallery."""
    rows = re.findall(r"^\| (\w+) \|[^|]*\|[^|]*\| cost (\d+):[^|]*\| (\d+) \|", read("examples/README.md"), re.M)
    trial.check("examples/README.md has a row for each design of the gallery", len(rows) == 8, f"   {rows}")
    for name, cost, cycles in rows:
        source = f"examples/{name}.cpp"
        top = read(source).split("\n")[0].split()[4]
        plan = trial.run(["plan", source, top, "examples/devices/two_halves.json", "--plan", "split"], ROOT)
        trial.check(f"{name}: the cost of its plan", f"\ncost {cost}\n" in plan.out.decode(), f"   {plan}")
        text = trial.put("g.v", trial.run(["build", source, top], ROOT).out)
        trial.check_that(f"{name}: its cycles", trial.run(["cosim", text, f"examples/{name}.json"], ROOT), lambda said: said.out.decode().endswith(f"\ndone {cycles}\n"))


def try_types(trial):
    mypy = shutil.which("mypy")
    if not mypy:
        trial.note("there is no mypy here, so types were not looked at")
        return
    ran = subprocess.run([mypy, "--config-file", "tools/pyproject.toml", "--strict", "--cache-dir=/dev/null", "tools/vechaqir"], cwd=ROOT, capture_output=True, text=True, check=False)
    trial.check("mypy --strict of tools/vechaqir", ran.returncode == 0, ran.stdout[-3000:] + ran.stderr[-1000:])
