#!/usr/bin/env python3
"""Prints what each task and each instance of a program uses of a device: the estimate of docs/DEVICE.md, by the program's own numbers.

    tools/estimate.py SRC TOP [DEV] [--json]

With a device the numbers of its key `tasks` are in place of estimates, and what its slots have is shown next to what is used. Where they have no
room for the tasks, the lines at the end say which resource is short.
"""
import json
import sys

sys.dont_write_bytecode = True
from vechaqir import script  # noqa: E402
from vechaqir.host import device, estimate, plan, slot_groups, table  # noqa: E402


@script.words(*script.DESIGN)
@script.word("device", metavar="DEV", nargs="?", help="a device file")
@script.word("--json", action="store_true", help="prints one object of JSON")
def main(asked):
    called = plan.program_for(asked.source, asked.top, asked.device)
    known = device.read(asked.device) if asked.device else None
    found = estimate.estimate(called, asked.source, asked.top, known.tasks if known else None)
    groups = slot_groups.groups(found.labels, slot_groups.links(asked.source, asked.top, found.labels, found.widths))
    print(json.dumps(table.as_object(found, groups, known), indent=2) if asked.json else "\n".join(table.in_words(found, groups, known)))


if __name__ == "__main__":
    script.call(main)
