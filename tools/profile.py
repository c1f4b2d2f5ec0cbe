#!/usr/bin/env python3
"""Where a circuit's cycles go, by task, by line of the source and by stream, what bounds it, and which change makes it faster.

    tools/profile.py SRC TOP [DATA] [--json] [--device DEV] [--plan MODE] [--cycles N] [--no-tries]
    tools/profile.py SRC TOP --dump F.vcd [--json]

The circuit is built and simulated, for a device where one is given; a run that stands still is followed for as long as it needs to come to that. Depths of streams and memories
that answer late are changed, built and simulated again, to say what each change gives. With --dump nothing is tried.
"""
import json
import sys
import tempfile

sys.dont_write_bytecode = True
from vechaqir import script  # noqa: E402
from vechaqir.host import dump  # noqa: E402
from vechaqir.language import source  # noqa: E402
from vechaqir.machine import run  # noqa: E402
from vechaqir.measure import bounds, profile, text, tries  # noqa: E402


@script.words(*script.DESIGN, *script.DATA, *script.DEVICE, *script.CYCLES)
@script.word("--dump", metavar="F.vcd", help="reads a dump of `tapa cosim --vcd` or of `tools/icarus.py --dump` in place of a simulation")
@script.word("--json", action="store_true", help="prints one object of JSON")
@script.word("--no-tries", action="store_true", help="tries no changes")
def main(asked):
    if asked.dump and asked.data:
        raise script.Usage("a dump has its data in it")
    read, changes = source.read(asked.source), None
    if asked.dump:
        shown = profile.profile(run.Run(read, source.network(read, asked.top), dump.read(asked.dump)))
    else:
        with tempfile.TemporaryDirectory(prefix="tapa-profile-") as folder:
            bench = tries.bench_of(asked, folder, asked.device, asked.plan)
            shown = bench.profile(read.text)
            changes = None if asked.no_tries else tries.changes(bench, read, shown)
    bound = bounds.bound(bounds.critical_way(shown))
    print(json.dumps(text.as_json(shown, bound, changes), indent=1) if asked.json else "\n".join(text.lines(shown, read, bound, changes)))


if __name__ == "__main__":
    script.call(main)
