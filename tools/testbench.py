#!/usr/bin/env python3
"""Prints a circuit with a testbench that checks it, for any simulator: what each stream carries and what the memories hold at the end, beside what `tapa run` shows.

    tools/testbench.py SRC TOP [DATA] [--device DEV] [--plan MODE] [--waits WAITS] [--alone] > F.v

    iverilog -g2005 -o F F.v && ./F
    verilator --binary --top-module bench F.v && obj_dir/Vbench

WAITS says how memories answer: `none` within the cycle (without the option), `late` a cycle later, as a block RAM, `random` in random cycles, with noise in the
others, `data` by the ready lists of DATA. The simulation prints PASS, or FAIL with the first difference, and ends. A run that stops (a deadlock) has a testbench
too, but not for a device.
"""
import sys

sys.dont_write_bytecode = True
from vechaqir import script  # noqa: E402
from vechaqir.host import data, report  # noqa: E402
from vechaqir.host.design import MODES, Design  # noqa: E402
from vechaqir.host.results import Failure, NotDone  # noqa: E402
from vechaqir.language import source  # noqa: E402
from vechaqir.measure import testbench, tries  # noqa: E402


def shown(design, command):
    """What the run shows, with unsigned numbers. script.Told where it does not end."""
    outcome = design.program.call(command)
    if outcome.status not in (0, 8):
        raise script.Told(outcome.err.decode("utf-8", "replace").strip(), command)
    return report.parse(outcome.out.decode(), outcome.err.decode())


def cycles_of(circuit, given, waits, ticks):
    """The cycles that the circuit takes; of one that stands still as many as its run made ticks, twice, and a few."""
    try:
        ready = given.ready if waits == "data" else {}
        return circuit.cosim(given.scalars, given.memories, ready).cycles if ticks is None else 2 * ticks + 100
    except NotDone as late:
        raise script.Fault(f"the circuit is {late}") from None


@script.words(*script.DESIGN, *script.DATA, *script.DEVICE)
@script.word("--waits", metavar="WAITS", choices=testbench.WAITS, default="none", help="how memories answer")
@script.word("--alone", action="store_true", help="leaves the circuit out, for a text of its ports and streams that is simulated in its place")
def main(asked):
    if asked.plan and asked.plan not in MODES:
        raise script.Usage(f"--plan is {asked.plan}, and has to be {', '.join(MODES[:-1])} or {MODES[-1]}")
    try:
        design = Design(asked.source, asked.top)
        inputs = data.read(asked.data) if asked.data else data.Data()
        run = shown(design, ["run", *tries.words_of(asked)])
        if run.end != "done" and asked.device:
            raise script.Fault("the run stops, so there is no testbench for a device, whose streams may carry more until they stand still")
        circuit = design.build(asked.device, asked.plan or "fit")
        cycles = cycles_of(circuit, inputs, asked.waits, None if run.end == "done" else run.count)
    except Failure as why:
        raise script.Told(str(why), ["build", asked.source, asked.top, *(["--device", asked.device] if asked.device else [])]) from None
    bench = testbench.made_of(source.network(source.read(asked.source), asked.top), inputs, run, testbench.limit_of(cycles, asked.waits))
    text = testbench.text_of(bench, asked.waits, script.called())
    sys.stdout.write(text if asked.alone else text + "\n" + circuit.text)


if __name__ == "__main__":
    script.call(main)
