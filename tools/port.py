#!/usr/bin/env python3
"""Ports a TAPA source to the language that `tapa` accepts: templates, structs, helper functions, arrays of streams, async_mmap and more.

    tools/port.py F.cpp TOP                       lists what is done, construct by construct, and what is left to change by hand
    tools/port.py F.cpp TOP --write OUT.cpp       writes the ported source; what is left is marked by lines `// port: ..`
    tools/port.py F.cpp TOP --check DATA.json ..  runs the original by g++ and the ported source by `tapa run`, and compares every token and every cell
    tools/port.py F.cpp                           lists the constructs that `tapa` refuses, with what to write instead; without libclang, and without what is in templates and structs

docs/FROM_TAPA.md says what is ported, and under which condition that is exact. The tool reads C++ by libclang (Debian: apt-get install python3-clang). The status is 0 if nothing is left, and with --check
if both reports are the same. It is 1 if something is left or differs, or the source cannot be read.
"""
import os
import sys

sys.dont_write_bytecode = True
from vechaqir import script  # noqa: E402
from vechaqir.port import command  # noqa: E402


def words():
    asked = script.Words(__doc__)
    asked.add_argument("source", metavar="F.cpp", help="the source")
    asked.add_argument("top", metavar="TOP", nargs="?", help="its top task")
    asked.add_argument("--write", metavar="OUT.cpp", help="writes the ported source")
    asked.add_argument("--check", metavar="DATA.json", nargs="+", default=[], help="compares both on these data files, which are of the ported source (docs/DATA.md)")
    asked.add_argument("--fixed", metavar="Q", type=script.number(0, 30), help="a `float` becomes an `int`, and a `double` an `int64_t`, with Q bits after the point")
    asked.add_argument("--seconds", metavar="N", type=script.number(1, 3600), default=9, help="the most seconds of CPU time for a port without its check, or for a list; 9 if not given")
    return asked


def main(asked):
    if asked.top is None:
        if asked.write or asked.check or asked.fixed is not None:
            raise script.Usage("--write, --check and --fixed need the top task: F.cpp TOP")
        return command.constructs(asked.source, asked.seconds)
    command.choose_interpreter(os.path.abspath(__file__))
    return command.asked(command.Options(asked.source, asked.top, asked.write, asked.check, asked.fixed, asked.seconds), script.called())


if __name__ == "__main__":
    script.run(words(), main)
