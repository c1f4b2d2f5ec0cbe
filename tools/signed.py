#!/usr/bin/env python3
"""Shows a report with the numbers of signed kinds as C++ would print them: -50 in place of 4294967246. tools/report.py shows more.

    ./tapa run SRC TOP DATA | tools/signed.py SRC TOP
    ./tapa cosim F.v DATA | tools/signed.py SRC TOP

The kinds are read from the source: those of the streams, inside its upper-level tasks too, and of the top task's memories. Other lines are passed on.
"""
import sys

sys.dont_write_bytecode = True
from vechaqir import script  # noqa: E402
from vechaqir.host import files  # noqa: E402
from vechaqir.language import source  # noqa: E402
from vechaqir.show import report  # noqa: E402


@script.words(*script.DESIGN)
def main(asked):
    network = source.network(source.read(asked.source), asked.top)
    for line in sys.stdin.buffer:
        sys.stdout.write(report.signed_lines(network, files.decoded(line, "standard input")))


if __name__ == "__main__":
    script.call(main)
