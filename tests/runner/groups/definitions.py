"""The programs of `crates/report_tests/stdin`, whose reports are compared with the definitions there: `run` reports what `stdout` there has."""
import re

from runner.trial import read

STDIN, STDOUT = "crates/report_tests/stdin", "crates/report_tests/stdout"
BODY = read("tests/cases/files/body.template")


def programs(stdin):
    """Each program that is run."""
    lines, is_run = [], False
    for line in stdin.splitlines():
        mark, _, words = line.partition(" ")
        if mark == "//body":
            kind, _, body = words.partition(" ")
            yield BODY.format(kind=kind, body=body)
        elif mark == "//run":
            is_run = True
            yield "\n".join(lines)
        elif mark not in ("//", "//trace"):
            lines, is_run = ([] if is_run else lines) + [line], False


def reports(stdout):
    """The report of each."""
    lines = []
    for line in stdout.splitlines():
        if line == "as by the rounds":
            yield lines
            lines = []
        elif not re.match(r"\d+ ticks, ", line):
            lines.append(line)


def try_all(trial):
    sources, wanted = list(programs(read(STDIN))), list(reports(read(STDOUT)))
    trial.check_equal(f"programs of {STDIN}, and reports of {STDOUT}", len(sources), len(wanted))
    for number, (source, report) in enumerate(zip(sources, wanted), 1):
        trial.put("r.cpp", source)
        said = trial.run(["run", "r.cpp", "T"])
        trial.check_equal(f"program {number} of {STDIN}: {source}", said.out.decode().splitlines(), report)
        trial.check(f"program {number} of {STDIN}: the status", said.status == (8 if report[-1].startswith("stopped") else 0), f"   {said}")
