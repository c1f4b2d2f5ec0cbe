#!/usr/bin/env python3
"""The report of a run for people: signed numbers, long streams shortened, ticks by task, what is not shown, and accesses past the end of a memory or an array.

    tools/report.py SRC TOP [DATA] [--long] [--json] [--expect F.json] [--no-circuit] [--cycles N]
    ./tapa run SRC TOP DATA | tools/report.py SRC TOP --from - [--cosim] [--long] [--json] [--expect F.json]

The first runs the program, and its circuit too: a dump of that shows how many ticks each task made. A second run in Python finds each access past the end of a memory or an array,
which a run passes over without a word (a read gives 0 there, and a write is dropped). The second reads a report that is there.
--expect compares with a file of `{"streams": {"q": [1, -2, "eot"]}, "memories": {"c": [3]}, "end": "done"}`, of which each part may be left out: the first difference is told, with status 1.
Else the status is that of the run.
"""
import json
import sys
import tempfile

sys.dont_write_bytecode = True
from vechaqir import script  # noqa: E402
from vechaqir.host import files, program  # noqa: E402
from vechaqir.language import source  # noqa: E402
from vechaqir.measure import tries  # noqa: E402
from vechaqir.show import report  # noqa: E402


def ran(asked, read):
    """A run, or the report that is there: its outputs and its status, and the profile of its circuit where it has one."""
    if asked.kept:
        kept = files.decoded(sys.stdin.buffer.read(), "standard input") if asked.kept == "-" else files.text(asked.kept)
        return kept, "", 0, None
    said = program.find().call(["run", *tries.words_of(asked)])
    shown = None
    if said.status in (0, 8) and not asked.no_circuit:
        with tempfile.TemporaryDirectory(prefix="tapa-report-") as folder:
            shown = tries.bench_of(asked, folder).profile(read.text)
    return said.out.decode(), said.err.decode("utf-8", "replace"), said.status, shown


def expected(path):
    try:
        found = json.loads(files.text(path))
    except (ValueError, RecursionError):
        raise script.Fault(f"{path}: no JSON, or a number is too long, or it nests too deep") from None
    if not isinstance(found, dict) or not all(isinstance(found.get(group, {}), dict) for group in ("streams", "memories")):
        raise script.Fault(f"{path}: no object with streams and memories")
    return found


@script.words(*script.DESIGN, *script.DATA, *script.CYCLES)
@script.word("--long", action="store_true", help="shows all values of each stream and memory")
@script.word("--json", action="store_true", help="prints one object of JSON")
@script.word("--expect", metavar="F.json", help="a file of what the run should leave")
@script.word("--no-circuit", action="store_true", help="runs no circuit")
@script.word("--from", dest="kept", metavar="REPORT", help="a report in place of a run; `-` is standard input")
@script.word("--cosim", action="store_true", help="the report is one of `cosim`")
def main(asked):
    if asked.kept and asked.data:
        raise script.Usage("a report that is there needs no data")
    wanted = expected(asked.expect) if asked.expect else None
    read = source.read(asked.source)
    network = source.network(read, asked.top)
    out, err, status, shown = ran(asked, read)
    told = report.signed_report(network, out, err)
    rows = report.rows(network, told, not asked.cosim)
    made = report.as_json(rows, told, shown)
    if asked.json:
        print(json.dumps(made, indent=1))
    else:
        print("".join(f"{line}\n" for line in report.lines(rows, told, asked.long, shown)), end="")
    sys.stdout.flush()
    sys.stderr.write(script.shown(err, ["run", *tries.words_of(asked)]))
    differs = report.first_difference(made, wanted) if wanted is not None else None
    if differs:
        raise script.Fault(differs)
    return status


if __name__ == "__main__":
    script.call(main)
