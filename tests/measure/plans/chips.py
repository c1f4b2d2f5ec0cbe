"""Device files for the suite: the U250 and the U280 in slots as the AutoBridge paper cuts them, with uses of the tasks that fill them as real ones do.

The designs are small in what the program estimates, so each task's use is its estimate times one factor, by which all tasks together take a part of
the LUT that the slots may hold: FULL of a hundred, and SPARSE where the design has fewer than MANY groups, as few large ones fit less well.
"""
import os
import sys

ROOT = os.path.dirname(os.path.dirname(os.path.dirname(os.path.dirname(os.path.abspath(__file__)))))
sys.path.insert(0, os.path.join(ROOT, "tools"))

from vechaqir.host import device as devices, estimate as estimates  # noqa: E402

PARTS = ("u250", "u280")
FULL, SPARSE, MANY = 80, 50, 30


def sized(found, known, fill):
    """The uses of tasks that take `fill` percent of the LUT of all slots together."""
    factor = fill * estimates.added(estimates.rooms_of(known))[0] / 100 / found.uses(found.labels)[0]
    return {task: [int(uses[0] * factor), int(uses[1] * factor), *uses[2:]] for task, uses in found.tasks.items()}


def device_of(part, found, groups, fill=None):
    """The device of a part, with the uses of a design's tasks."""
    known = devices.read(os.path.join(ROOT, f"examples/devices/{part}.json"))
    known.tasks = sized(found, known, fill or (FULL if groups >= MANY else SPARSE))
    known.original["tasks"] = {task: dict(zip(devices.RESOURCES, uses)) for task, uses in known.tasks.items()}
    return known
