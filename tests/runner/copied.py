"""A folder with what `./tapa` needs, apart from the repository, and how the script is called there."""
import os
import shutil
import subprocess

from runner.trial import ROOT


def repository(trial, name, has_program=True):
    """A folder with what `./tapa` needs, and the program as if it had been proved there."""
    folder = os.path.join(trial.folder.name, name)
    os.makedirs(f"{folder}/crates/tapa_cli/out")
    for file in ("tapa", "crates.txt", "tools/explain.py", "tools/unproved.py", "docs/REFUSALS.md", "docs/COMMAND.md", "docs/FROM_TAPA.md", "examples/refused/conditional_read.cpp", "examples/bad_token.cpp"):
        os.makedirs(os.path.dirname(f"{folder}/{file}"), exist_ok=True)
        shutil.copy(os.path.join(ROOT, file), f"{folder}/{file}")
    shutil.copytree(os.path.join(ROOT, "tools/vechaqir"), f"{folder}/tools/vechaqir", ignore=shutil.ignore_patterns("__pycache__"))
    if has_program:
        shutil.copyfile(trial.program, f"{folder}/crates/tapa_cli/out/tapa_cli")
        os.chmod(f"{folder}/crates/tapa_cli/out/tapa_cli", 0o755)
    return folder


def run_script(words, folder, path=None):
    """A command without a terminal: its status, its output, and its lines of standard error."""
    environment = {**os.environ, "PATH": path or os.environ["PATH"]}
    ran = subprocess.run(words, cwd=folder, stdin=subprocess.DEVNULL, capture_output=True, text=True, check=False, env=environment)
    return ran.returncode, ran.stdout, ran.stderr.splitlines()
