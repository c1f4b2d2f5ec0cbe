#!/usr/bin/env python3
"""Writes the stream arrays and counted invokes of a source out, as `tapa` reads it (docs/LANGUAGE.md, "Stream arrays").

    tools/written_out.py SRC              the written-out text, or `tapa: SRC:LINE:COL: CODE TEXT` and the status 1
    tools/written_out.py SRC LINE COL     the place in SRC of this place of the written-out text
"""
import sys
from pathlib import Path

sys.dont_write_bytecode = True
from vechaqir import script  # noqa: E402
from vechaqir.language import arrays, strict  # noqa: E402


@script.word("source", metavar="SRC", help="the source")
@script.word("place", metavar="LINE COL", nargs="*", default=[], type=script.number(0, 10**9), help="a line and a column of the written-out text")
def main(asked):
    if len(asked.place) not in (0, 2):
        raise script.Usage("a place is a line and a column")
    source = Path(asked.source).read_bytes()
    try:
        if asked.place:
            print("{}:{}:{}".format(asked.source, *arrays.source_place(source, *asked.place)))
        else:
            sys.stdout.buffer.write(arrays.Writer(source).written()[0])
    except arrays.Refused as why:
        raise script.Told("tapa: {}:{}:{}: {} {}".format(asked.source, *arrays.place_of(source, why.at), why.code, arrays.TEXTS[why.code]), ["run", asked.source]) from None
    except strict.NoLexemes:
        raise script.Fault(f"{asked.source} has no lexemes: `tapa run` tells where") from None


if __name__ == "__main__":
    script.call(main)
