"""The command in the first line of each example, with its standard output and error, and `g++` and `clang++` with `tools/include/tapa.h`."""
import os
import shlex
import shutil
import subprocess

from runner.trial import ROOT, each, first_words, read, sources

FOLDERS = ("examples", "examples/refused")


def names():
    return [path.removesuffix(".cpp") for path in sources(*FOLDERS)]


def text_of(path):
    return read(path) if os.path.exists(os.path.join(ROOT, path)) else ""


@each(names)
def try_example(trial, name):
    first = read(f"{name}.cpp").split("\n")[0]
    words = shlex.split(first.removeprefix("// tapa "))
    trial.check(f"{name}: its first line is its command", words[:2] == ["run", f"{name}.cpp"], f"   {first}")
    out, err = text_of(f"{name}.out"), text_of(f"{name}.err")
    status = 0 if not err else 8 if out else 1
    trial.check_that(name, trial.run(words, ROOT), lambda said: (said.status, said.out.decode(), said.err.decode()) == (status, out, err))
    listed = read("examples/README.md")
    trial.check(f"{name} stands in examples/README.md", f"| {os.path.basename(name).removesuffix('_mended')} |" in listed)


def try_plans(trial):
    """Every example that is no slip fits on the devices of `examples/devices`, and the flow shows each balance to be best."""
    devices = [f"examples/devices/{name}.json" for name in ("u250", "u280")]
    for name in names():
        if name.startswith("examples/refused/") and not name.endswith("_mended"):
            continue
        top = first_words(f"{name}.cpp")[1]
        for device in devices:
            said = trial.run(["plan", f"{name}.cpp", top, device], ROOT)
            last = [line.split() for line in said.out.decode().splitlines()[-3:]]
            shown = [word for word, _ in last] == ["cost", "registers", "dual"] and last[1][1] == last[2][1]
            trial.check(f"{name} on {device}", said.status == 0 and shown, f"   {said}")


def try_compilers(trial):
    """With tools/include/tapa.h a C++ compiler accepts the examples that have no slip of C++."""
    compilers = [it for it in ("g++", "clang++") if shutil.which(it)]
    if not compilers:
        trial.note("there is no C++ compiler here, so tools/include/tapa.h was not tried")
    for compiler in compilers:
        for name in names():
            if name.startswith("examples/refused/") and not name.endswith("_mended"):
                continue
            words = [compiler, "-std=c++17", "-fsyntax-only", "-Wall", "-Itools/include", f"{name}.cpp"]
            ran = subprocess.run(words, cwd=ROOT, capture_output=True, text=True)
            trial.check(f"{compiler} accepts {name}", ran.returncode == 0, ran.stderr[:800])
