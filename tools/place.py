#!/usr/bin/env python3
"""Searches a placement of a program's tasks on a device, and prints the device file with a pin for each group of tasks.

    tools/place.py SRC TOP DEV [--seconds N | --attempts N] [--seed N] [--workers N] [--levels] > PINNED.json
    ./tapa plan SRC TOP PINNED.json
    ./tapa build SRC TOP --device PINNED.json

Pins, forbidden slots and all else of the device file are kept. The search looks for the least cost, bits times borders, as `--plan exact` does, also
where that one refuses for too many plans; nothing proves that it found the least, but the program checks, balances and certifies what it found. The
cheapest of all attempts counts, the first of several, so the same seed and number of attempts give the same file on every machine; the seconds decide
how many attempts are made. A line on standard error tells the cost and the attempt that found it. With --levels the one of the eight cheapest counts,
in bits times the registers of borders, for which the program tells the fewest registers. The status is 4 where no placement fits or none was found,
with the resource that is short, and the program's own where it refuses a file.
"""
import sys
import time

sys.dont_write_bytecode = True
from vechaqir import script  # noqa: E402
from vechaqir.host import device, plan as plans  # noqa: E402
from vechaqir.place import attempts, placement  # noqa: E402


class Progress:
    """A line on a terminal that tells how far the search is."""

    def __init__(self):
        self.begun, self.is_shown = time.monotonic(), sys.stderr.isatty()

    def tell(self, result):
        best = result.best()
        if self.is_shown:
            cost = f"least cost {best.cost}" if best else "none fits yet"
            sys.stderr.write(f"\r\x1b[K{time.monotonic() - self.begun:.0f} s: {len(result.layouts)} attempts, {cost}")
            sys.stderr.flush()

    def end(self):
        if self.is_shown:
            sys.stderr.write("\r\x1b[K")


def told(found, seed, is_by_levels):
    """What is told of a placement."""
    least = ": no placement costs less" if found.is_least and not is_by_levels else ""
    of = f"attempt {found.number + 1} of {found.attempts}, seed {seed}"
    plan = found.plan
    return f"cost {plan.cost}, registers {plan.registers} for balance, {placement.registers(plan) - plan.registers} at borders, by {of}{least}"


@script.words(*script.DESIGN)
@script.word("device", metavar="DEV", help="the device file")
@script.word("--seconds", metavar="N", type=script.number(1, 86_400), default=10, help="how long to look, 10 if not given, and at least one attempt")
@script.word("--attempts", metavar="N", type=script.number(1, 1_000_000), help="how many attempts to make, however long that takes")
@script.word("--seed", metavar="N", type=script.number(0, 2**63), default=1, help="where the chance of all attempts begins, 1 if not given")
@script.word("--workers", metavar="N", type=script.number(1, 64), default=min(64, attempts.processors()), help="processors, all if not given")
@script.word("--levels", action="store_true", help="the fewest registers, those of the balance too, in place of the least cost")
def main(asked):
    tells = Progress()
    try:
        program = plans.program_for(asked.source, asked.top, asked.device)
        request = placement.read_request(program, asked.source, asked.top, device.read(asked.device))
        limits = attempts.Limits(asked.seconds, asked.attempts, asked.workers)
        found = placement.place(request, asked.seed, limits, asked.levels, tells.tell)
    finally:
        tells.end()
    sys.stdout.write(found.text)
    sys.stdout.flush()
    sys.stderr.write(f"{script.called()}: {told(found, asked.seed, asked.levels)}\n")


if __name__ == "__main__":
    script.call(main)
