#!/usr/bin/env python3
"""Shows what `tapa` tells of a source: the line, a caret, why it is refused, and what to write instead.

    tapa run F.cpp T 2>&1 >/dev/null | tools/explain.py [-- run F.cpp T]
    tapa run F.cpp T 2>&1 | tools/explain.py --places
    tools/explain.py --run PROGRAM run F.cpp T

Each line is passed on as it is; what is explained stands below it. Behind `--` stand the words with which `tapa` was called, by which more can be said. With `--places` nothing is
explained, and a place of the text in which arrays are written out (docs/LANGUAGE.md, "Stream arrays") becomes the place in the source, for editors. With `--run` PROGRAM is run with the
words behind it, as `./tapa` does on a terminal: its messages are explained, a run of more than a second tells once a second how long it has run, and the end is the program's own.
Nothing here is proved.
"""
import sys
from argparse import REMAINDER

sys.dont_write_bytecode = True
from vechaqir import script  # noqa: E402
from vechaqir.explain import run  # noqa: E402


def out(text):
    sys.stdout.buffer.write(text)
    sys.stdout.buffer.flush()


@script.word("words", metavar="-- WORDS", nargs="*", help="the words with which `tapa` was called")
@script.word("--places", action="store_true", help="puts places in the source into the messages")
@script.word("--run", metavar="PROGRAM WORDS", nargs=REMAINDER, help="runs the program with these words")
def main(asked):
    if asked.run:
        run.run(asked.run[0], asked.run[1:])
    from vechaqir.explain import explainer
    if asked.places:
        for line in sys.stdin.buffer:
            out((explainer.placed(line.decode("utf-8", "surrogateescape").rstrip("\n")) + "\n").encode("utf-8", "surrogateescape"))
    else:
        explainer.run(sys.stdin.buffer, out, explainer.Command(asked.words or None))


if __name__ == "__main__":
    script.call(main)
