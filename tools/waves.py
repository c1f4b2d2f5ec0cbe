#!/usr/bin/env python3
"""Draws a value change dump as an SVG: waveforms of nets, or how full streams are over time.

    tools/waves.py F.vcd [--nets A,B,..] [--from N] [--to N] > F.svg
    tools/waves.py F.vcd --fill [--from N] [--to N] > F.svg

A dump is that of `tapa cosim --vcd`, of `tools/icarus.py --dump` or of `tools/names.py --waves`, whose acts are drawn as texts. A net is named by its path, `t_Add$2.state`, or by its name alone where no other net has it. Unknown values are
hatched. A stream X is as full as tokens were written to it (`s_X_wr` and `s_X_rdy`) and not yet taken (`s_X_has` and `s_X_take`): in its FIFO or on their way to it. Nothing here is
proved: the picture shows what the dump says.
"""
import sys

sys.dont_write_bytecode = True
from vechaqir import script  # noqa: E402
from vechaqir.host import dump  # noqa: E402
from vechaqir.show import waves  # noqa: E402


@script.word("dump", metavar="F.vcd", help="the dump")
@script.word("--nets", metavar="A,B,..", default="", help=f"the nets, the first {waves.MOST} if not given")
@script.word("--fill", action="store_true", help="draws how full streams are")
@script.word("--from", dest="first", metavar="N", type=script.number(), default=0, help="the first cycle")
@script.word("--to", dest="last", metavar="N", type=script.number(), help="the last cycle")
def main(asked):
    read = dump.read(asked.dump)
    if asked.fill:
        rows, at = waves.rows_of_fills(read, asked.first, asked.last)
    else:
        names = [waves.found_name(read, name) for name in asked.nets.split(",") if name] or list(read.nets)[:waves.MOST]
        rows, at = waves.rows_of_nets(read, names, asked.first, asked.last)
    if not any(row.runs for row in rows):
        raise script.Fault(f"{asked.dump}: nothing to draw from cycle {asked.first} on")
    print("\n".join(waves.drawing(rows, asked.first, at, asked.fill)))


if __name__ == "__main__":
    script.call(main)
