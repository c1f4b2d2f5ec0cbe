#!/usr/bin/env python3
"""The way back from a circuit to its source: which variable each register is, which line and act each state, which stream and instance each channel.

    tools/names.py SRC TOP                          a table
    tools/names.py SRC TOP --json                   the same as JSON
    tools/names.py SRC TOP --gtkw F.gtkw --dump D   a GTKWave save file for the dump D, with names and lines, and beside it a translate file for each task
    tools/names.py SRC TOP --waves D > F.vcd        of a dump D a waveform by the source's names: each task's line, act and variables in each cycle

A dump is what `tapa cosim F.v DATA --vcd` or `tools/icarus.py F.v DATA --dump D` wrote of the circuit that `tapa build SRC TOP` printed. Only that of Icarus Verilog has the
nets inside of tasks, which --gtkw names; --waves takes either.
"""
import json
import os
import sys
from pathlib import Path

sys.dont_write_bytecode = True
from vechaqir import script  # noqa: E402
from vechaqir.host import dump  # noqa: E402
from vechaqir.language import source  # noqa: E402
from vechaqir.machine import names, run, waveform  # noqa: E402


def write_save_file(table, path, dumped):
    """Writes the save file, and a translate file for each task beside it."""
    folder, stem = os.path.dirname(os.path.abspath(path)), os.path.splitext(os.path.basename(path))[0]
    for module, text in names.translations(table):
        Path(folder, f"{stem}.{module}.states").write_text(text, encoding="utf-8")
    Path(path).write_text("".join(f"{line}\n" for line in names.save_file(table, dumped, folder, stem)), encoding="utf-8")


@script.words(*script.DESIGN)
@script.word("--json", action="store_true", help="prints the table as JSON")
@script.word("--gtkw", metavar="F.gtkw", help="writes a save file of GTKWave for the dump of --dump")
@script.word("--dump", metavar="D", help="a dump")
@script.word("--waves", metavar="D", help="prints the waveform of a dump by the source's names")
def main(asked):
    if bool(asked.gtkw) != bool(asked.dump):
        raise script.Usage("--gtkw and --dump go together")
    read = source.read(asked.source)
    network = source.network(read, asked.top)
    if asked.waves:
        for line in waveform.dump(run.Run(read, network, dump.read(asked.waves))):
            print(line)
        return
    table = names.table(read, network)
    if asked.gtkw:
        write_save_file(table, asked.gtkw, dump.read(asked.dump))
    elif asked.json:
        print(json.dumps(table, indent=1))
    else:
        print("\n".join(names.text(table)))


if __name__ == "__main__":
    script.call(main)
