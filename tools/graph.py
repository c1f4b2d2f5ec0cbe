#!/usr/bin/env python3
"""Draws the tasks, streams and memories of a circuit that `tapa build` wrote, as an SVG.

    ./tapa build SRC TOP > F.v && tools/graph.py F.v > F.svg
    ./tapa run SRC TOP 2> F.told; tools/graph.py F.v F.told > F.svg

With the messages of a run that has stopped, streams that an instance waits for are marked, with who waits for what. An arrow is a stream, with the bits of a token (one of them marks the end of a transaction), the depth of its FIFO, and the registers on its way where there are
some. A round box is a memory of the top task, a dashed box an upper-level task. Nothing here is proved: the picture shows what the top module of the text joins.
"""
import sys

sys.dont_write_bytecode = True
from vechaqir import script  # noqa: E402
from vechaqir.host import files  # noqa: E402
from vechaqir.show import networks  # noqa: E402


@script.word("circuit", metavar="F.v", help="what `tapa build` printed")
@script.word("told", metavar="F.told", nargs="?", help="the messages of a run that has stopped")
def main(asked):
    network, facts, late = networks.of_circuit(files.text(asked.circuit))
    if asked.told:
        late = networks.put_waits(network, facts, files.text(asked.told).splitlines())
    print("\n".join(networks.drawing(network, facts, late)))


if __name__ == "__main__":
    script.call(main)
