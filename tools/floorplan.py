#!/usr/bin/env python3
"""Draws what `tapa plan` printed as an SVG: the slots with how full they are, the tasks in them, and the streams over each border as a bundle.

    ./tapa plan SRC TOP DEV > F.plan
    tools/floorplan.py F.plan DEV SRC TOP > F.svg

A stream over several borders is counted at each: it goes along its writer's column, and then along its reader's row. Without a source and its top task
no bundles are drawn, since a plan does not tell where streams begin and end. In slots with many tasks each is a small box in the colour of its leaf task.
"""
import sys

sys.dont_write_bytecode = True
from vechaqir import script  # noqa: E402
from vechaqir.host import device, plan, slot_groups  # noqa: E402
from vechaqir.show import floorplan  # noqa: E402


@script.word("plan", metavar="F.plan", help="what `tapa plan` printed")
@script.word("device", metavar="DEV", help="the device file")
@script.word("source", metavar="SRC", nargs="?", help="the source")
@script.word("top", metavar="TOP", nargs="?", help="its top task")
def main(asked):
    if asked.source and not asked.top:
        raise script.Usage("a source needs its top task")
    planned = plan.read(asked.plan)
    known = device.read(asked.device)
    if set(planned.slots) != {known.place(number) for number in range(len(known.slots))}:
        raise script.Fault(f"{asked.plan} is no plan on the device {asked.device}: they have other slots")
    widths = {stream.name: stream.width for stream in planned.streams}
    links = slot_groups.links(asked.source, asked.top, list(planned.tasks), widths) if asked.source else []
    print("\n".join(floorplan.drawing(planned, known, links)))


if __name__ == "__main__":
    script.call(main)
