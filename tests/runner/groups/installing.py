"""`tools/install` in an empty folder, the manual page, both completions, pages as HTML, and an archive of a release, made twice and unpacked."""
import os
import re
import shlex
import shutil
import subprocess
import sys
import tarfile

from runner import prose
from runner.groups.sources import table
from runner.trial import ROOT, read


def run(trial, words, folder=ROOT, **environment):
    ran = subprocess.run(words, cwd=folder, stdin=subprocess.DEVNULL, capture_output=True, text=True, check=False, env={**os.environ, "TAPA": trial.program, **environment})
    return ran.returncode, ran.stdout, ran.stderr


def try_install(trial):
    """The installed command runs, by its own name, with its tools and module beside it."""
    prefix = os.path.join(trial.folder.name, "a prefix")
    status, out, err = run(trial, ["tools/install", prefix, "vtapa"])
    trial.check("tools/install in an empty folder", (status, err) == (0, "") and f"{prefix}/bin/vtapa" in out, out + err)
    words = [f"{prefix}/bin/vtapa", "run", "examples/vector_add.cpp", "VecAdd", "examples/vector_add.json"]
    status, out, err = run(trial, words, f"{prefix}/lib/vtapa")
    told = "tapa: UNPROVED: no prover has accepted the sources of this program\n"
    wanted = "" if os.path.exists(f"{prefix}/lib/vtapa/program/PROVED") else told
    trial.check_equal("the installed command runs", (status, out, err), (0, read("examples/vector_add.out"), wanted))
    status, out, err = run(trial, [f"{prefix}/bin/vtapa", "--explain", "run", "x.cpp", "T", "--stps"], f"{prefix}/lib/vtapa")
    trial.check("the installed command says its own name", status == 2 and "      = vtapa run SRC TOP" in err and "`run` has no option `--stps`" in err and " tapa run" not in err, err)
    status, out, err = run(trial, [f"{prefix}/lib/vtapa/tools/graph.py", "--help"])
    trial.check("the help of an installed script names the command and itself", f"    vtapa build SRC TOP > F.v && {prefix}/lib/vtapa/tools/graph.py F.v > F.svg\n" in out and "./tapa" not in out, out + err)
    code = "from vechaqir import find; print(find().path)"
    found = subprocess.run([sys.executable, "-B", "-c", code], cwd=f"{prefix}/lib/vtapa/tools", capture_output=True, text=True, check=False, env={key: it for key, it in os.environ.items() if key != "TAPA"})
    trial.check_equal("its module finds its program", found.stdout.strip(), f"{prefix}/lib/vtapa/program/tapa")
    trial.check("it is installed once more over itself", run(trial, ["tools/install", prefix, "vtapa"])[0] == 0)
    for words, wanted in (([], 2), (["--help"], 0), ([prefix, "a b"], 2), ([prefix, "x", "y"], 2), (["/dev/null/x"], 1)):
        status, out, err = run(trial, ["tools/install", *words])
        trial.check(f"tools/install {' '.join(words)}", status == wanted and bool(out) == (wanted == 0) and bool(err) != (wanted == 0), f"   {status} {out} {err}")
    return prefix


def try_manual(trial, prefix):
    page = f"{prefix}/share/man/man1/vtapa.1"
    text = read(page)
    for part in ("vtapa run SRC TOP", "more than N ticks", "\\-\\-no\\-balance"):
        trial.check(f"the page of man has {part}", part in text)
    if not shutil.which("man"):
        trial.note("there is no man here, so its page was not tried")
        return
    status, out, err = run(trial, ["man", "--warnings", "-l", page], LC_ALL="C.UTF-8", MANROFFSEQ="", MANPAGER="cat")
    trial.check("man shows the page without a warning", (status, err) == (0, "") and "SYNOPSIS" in out, err[:500])


def try_bash(trial, prefix):
    if not shutil.which("bash"):
        trial.note("there is no bash here, so its completion was not tried")
        return
    script = 'source "$0"; COMP_WORDS=("$@"); COMP_CWORD=$(($# - 1)); _tapa; echo "${COMPREPLY[*]}"; complete -p vtapa >&2'
    for row in table("tests/cases/files/completed.rows")[1]:
        words, _, wanted = row.partition("  =>  ")
        status, out, err = run(trial, ["bash", "-c", script, f"{prefix}/share/bash-completion/completions/vtapa", *shlex.split(words)])
        trial.check_equal(f"bash completes {words}", (out.strip(), "vtapa" in err), (wanted, True))


def try_zsh(trial, prefix):
    """zsh takes the file as a completion of the command."""
    if not shutil.which("zsh"):
        trial.note("there is no zsh here, so its completion was not tried")
        return
    script = 'fpath=("$1" $fpath); autoload -Uz compinit; compinit -u -D; echo $_comps[vtapa]; zsh -n "$1/_vtapa"'
    status, out, err = run(trial, ["zsh", "-f", "-c", script, "zsh", f"{prefix}/share/zsh/site-functions"])
    trial.check("zsh completes the command", (status, out.strip(), err) == (0, "_vtapa", ""), f"   {status} {out} {err}")


def try_release(trial):
    """A clean clone gives an archive, twice the same; what is in it runs, and its sums are right. The clone has no proved program, so without --unproved there is none."""
    clone, made = os.path.join(trial.folder.name, "clone"), os.path.join(trial.folder.name, "made")
    if not shutil.which("git") or run(trial, ["git", "clone", "-q", "--depth", "1", f"file://{ROOT}", clone])[0]:
        trial.note("this is no clone, so no release was made")
        return
    trial.check("without the proved program there is no release", run(trial, [f"{clone}/tools/release.sh", made])[0] == 1)
    sums = [run(trial, [f"{clone}/tools/release.sh", made, "--unproved"]) for _ in range(2)]
    trial.check("an archive made twice is one sum", sums[0] == sums[1] and sums[0][0] == 0, f"   {sums}")
    name = sums[0][1].split()[-1]
    with tarfile.open(f"{made}/{name}") as archive:
        archive.extractall(made)
    home = f"{made}/{name.removesuffix('.tar.gz')}"
    trial.check_equal("the sums of a release", run(trial, ["sha256sum", "-c", "--quiet", "SUMS"], home)[:2], (0, ""))
    status, out, _ = run(trial, ["./tapa", "run", "examples/vector_add.cpp", "VecAdd", "examples/vector_add.json"], home)
    trial.check_equal("a release runs", (status, out), (0, read("examples/vector_add.out")))
    for path in ("RELEASE.md", "VERSION", "docs/EXAMPLES.html", "docs/TOOLS.html", "docs/README.html", "docs/COMMAND.html", "docs/PYTHON.md", "share/man/man1/tapa.1", "tools/completion/_tapa", "tools/vechaqir/py.typed"):
        trial.check(f"a release has {path}", os.path.exists(f"{home}/{path}"))
    trial.check_equal("links of the pages of a release that lead nowhere", list(dead_links(f"{home}/docs")), [])
    with open(f"{clone}/README.md", "a", encoding="utf-8") as file:
        file.write("x")
    trial.check("what is changed is not released", "git status" in run(trial, [f"{clone}/tools/release.sh", made, "--unproved"])[2])


def dead_links(folder):
    """The links of HTML pages that lead to no file, or to no heading of one."""
    texts = {}
    for name in sorted(os.listdir(folder)):
        if name.endswith(".html"):
            texts[name] = read(os.path.join(folder, name))
    for name, text in texts.items():
        for target in re.findall(r'(?:href|src)="([^"]*)"', text):
            path, _, part = target.partition("#")
            if not re.match(r"[a-z]+:", target) and (not os.path.exists(os.path.join(folder, path or name)) or part and f'id="{part}"' not in texts.get(path or name, "")):
                yield f"{name}: {target}"


def try_html(trial):
    """Each page as HTML: its headings, tables and code stand in it."""
    for name in prose.pages():
        status, out, err = run(trial, [sys.executable, "tools/manual.py", "html", name])
        text = re.sub(r"^```.*?^```", "", read(name), flags=re.M | re.S)
        headings = len(re.findall(r"^#+ ", text, re.M))
        trial.check(f"{name} as HTML", (status, err) == (0, "") and len(re.findall(r"<h[1-6] ", out)) == headings and "\n|" not in out, f"   {headings} {err[:200]}")
    odd = trial.put("odd.md", f"# a\n #b\n#c\n\t*x*\n####### d\n|---|\n\n{'[' * 100_000}\n\n# {'[' * 100_000}\n{'[a](' * 50_000}\n\n{'![' * 50_000}\n")
    ran = subprocess.run([sys.executable, "tools/manual.py", "html", odd], cwd=ROOT, capture_output=True, text=True, timeout=60, check=False)
    parts = ('<h1 id="a">a</h1>', "<p> #b</p>", "<p>#c</p>", "<p>\t<i>x</i></p>", "<p>####### d</p>", f"<p>{'[' * 100_000}</p>")
    trial.check_equal("a page with odd lines as HTML", ([it for it in parts if it not in ran.stdout], ran.returncode, ran.stderr), ([], 0, ""))


def try_all(trial):
    prefix = try_install(trial)
    try_manual(trial, prefix)
    try_bash(trial, prefix)
    try_zsh(trial, prefix)
    try_html(trial)
    try_release(trial)
