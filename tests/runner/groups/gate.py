"""What the gate answers if one of its parts fails, and the table of its seconds by `tests/measure/gate_seconds.py`."""
import os
import shutil
import subprocess
import sys
from pathlib import Path

from runner.trial import ROOT, read

LOG = read("tests/cases/files/gate.log")

TABLE = read("tests/cases/files/gate.md")


def try_gate_seconds(trial):
    log = trial.put("gate.log", LOG)
    trial.check_equal("the table of seconds", trial.tool("../tests/measure/gate_seconds.py", "table", log)[1], TABLE)
    busy = "import time\nend = time.monotonic() + 2\nwhile time.monotonic() < end: pass\nprint('1 passed, 0 failed')\nraise SystemExit(3)"
    words = ["watch", log, sys.executable, "-c", busy, "--crate-name", "tapa_base", "x"]
    trial.check_that("the watched command's output and status", trial.tool("../tests/measure/gate_seconds.py", *words), lambda status, out, _: (status, out) == (3, "1 passed, 0 failed\n"))


def run_gate(folder, gate, cases, has_program=True):
    """The gate in a repository where `rt` and `python3` only end with these statuses: its status, and what it ran."""
    repository = f"{folder}/gate/tapa"
    shutil.rmtree(f"{folder}/gate", ignore_errors=True)
    for path in (f"{repository}/.ci", f"{repository}/crates/tapa_cli/out", f"{folder}/gate/bin"):
        os.makedirs(path)
    shutil.copy(os.path.join(ROOT, ".ci/run"), f"{repository}/.ci/run")
    scripts = {"bin/rt": f"echo rt $1; exit {gate}", "bin/python3": f"echo cases; exit {cases}"}
    if has_program:
        scripts["tapa/crates/tapa_cli/out/tapa_cli"] = ""
    for name, text in scripts.items():
        Path(f"{folder}/gate/{name}").write_text(f"#!/bin/sh\n{text}\n", encoding="utf-8")
        os.chmod(f"{folder}/gate/{name}", 0o755)
    environment = {**os.environ, "PATH": f"{folder}/gate/bin:{os.environ['PATH']}"}
    ran = subprocess.run(["sh", ".ci/run"], cwd=repository, env=environment, stdin=subprocess.DEVNULL, capture_output=True, text=True, check=False)
    return ran.returncode, [line for line in ran.stdout.splitlines() if not line.startswith("gate: ")], "not tried" in ran.stdout


def try_gate(trial):
    """Each part of the gate runs, none hides another's failure, and what is not tried is said."""
    folder = trial.folder.name
    every = ["rt ci", "cases"]
    for statuses, wanted in (((0, 0), 0), ((1, 0), 1), ((0, 1), 1), ((2, 1), 2)):
        trial.check_equal(f"the gate with the statuses {statuses}", run_gate(folder, *statuses), (wanted, every, False))
    trial.check_equal("the gate without a program", run_gate(folder, 0, 0, has_program=False), (1, ["rt ci"], True))
