#!/usr/bin/env python3
"""A language server for TAPA sources, over standard input and output (docs/EDITORS.md).

    tools/lsp.py

An editor starts it, and speaks the Language Server Protocol with it, version 3.17: diagnostics of the program with their explanations while a source is written, what a name is and
which tasks write and read a stream, definitions, references, rename, and completion. The program that is asked is that of the variable TAPA, or the one that `./tapa` runs; it is not
built here. In a profile that lies beside `F.cpp` as `F.profile.json` (`tools/profile.py F.cpp TOP DATA --json`), it reads the cycles of each line.
"""
import sys

sys.dont_write_bytecode = True
from vechaqir import script  # noqa: E402


def main(_):
    from vechaqir.editor import server
    return server.serve()


if __name__ == "__main__":
    script.call(main)
