#!/usr/bin/env python3
"""Makes one HTML page of a design, to be opened in a browser: its network, what each task does in each cycle, what bounds it, its source with the cycles of each line, its plan, and its report.

    tools/look.py SRC TOP [DATA] [--device DEV] [--plan MODE] [--cycles N] [--no-tries] > F.html

The program is run, its circuit built, for the device where one is given, and simulated. A run that stands still is followed until it does. The page needs no network. Depths and
memories that would make the circuit faster are looked for as tools/profile.py does. With Graphviz (`dot`) on the PATH a network of up to 160 tasks is laid out by it.
"""
import sys
import tempfile

sys.dont_write_bytecode = True
from vechaqir import script  # noqa: E402
from vechaqir.host import device, estimate, plan  # noqa: E402
from vechaqir.language import source  # noqa: E402
from vechaqir.measure import tries  # noqa: E402
from vechaqir.show import contents, report as reports  # noqa: E402


def planned(tapa, asked, network):
    """What the page shows of the plan."""
    command = ["plan", asked.source, asked.top, asked.device, *(["--plan", asked.plan] if asked.plan else [])]
    said = tapa.call(command)
    if said.status != 0:
        raise script.Told(said.err.decode("utf-8", "replace").strip(), command)
    return contents.plan_data(plan.parse(said.out.decode()), device.read(asked.device), network)


def uses(tapa, asked):
    """What a task uses of a device; nothing if the program does not say it."""
    try:
        return contents.uses_data(estimate.estimate(tapa, asked.source, asked.top))
    except (script.Fault, script.Told):
        return None


@script.words(*script.DESIGN, *script.DATA, *script.DEVICE, *script.CYCLES)
@script.word("--no-tries", action="store_true", help="looks for no changes that make the circuit faster")
def main(asked):
    read = source.read(asked.source)
    network = source.network(read, asked.top)
    with tempfile.TemporaryDirectory(prefix="tapa-look-") as folder:
        bench = tries.bench_of(asked, folder, asked.device, asked.plan)
        shown = bench.profile(read.text)
        made = contents.page_data(read, network, shown)
        if not asked.no_tries:
            made["changes"] = contents.changes_data(tries.changes(bench, read, shown))
    said = bench.program.call(["run", *bench.words])
    report = reports.signed_report(network, said.out.decode(), said.err.decode("utf-8", "replace"))
    made["run"] = contents.report_data(reports.rows(network, report, True), report)
    made["uses"] = uses(bench.program, asked)
    if asked.device:
        made["plan"] = planned(bench.program, asked, network)
    sys.stdout.write(contents.page(made))


if __name__ == "__main__":
    script.call(main)
