"""Groups of cases one after the other, or several at once: what each came to, what is kept of it for the next time, and the summary."""
import contextlib
import json
import multiprocessing
import os
import signal
import sys
import time
import traceback
from pathlib import Path
from typing import NamedTuple

from runner import groups
from runner.trial import ROOT, Trial

# Which groups failed last time, and how many seconds each took.
KEPT = os.path.join(ROOT, "out", "tests", "last.json")
# The most lines of the summary that say what could not be tried, or what failed.
MOST = 7
FORK = multiprocessing.get_context("fork")


class Done(NamedTuple):
    """What a group came to: its cases, its seconds, what could not be tried, and the lines of standard error that the program wrote."""

    name: str
    passed: int
    failed: int
    seconds: float
    notes: list
    lines: set


class Asked(NamedTuple):
    """A group to be tried on a program; whether all groups are, and what those before it had the program report."""

    name: str
    program: str
    is_whole: bool
    lines: set


def tried(asked):
    """Tries a group; one that ends in an exception has failed, and the others go on."""
    begun, trial = time.monotonic(), Trial(asked.program, asked.is_whole)
    trial.begin(asked.name)
    trial.lines = set(asked.lines)
    try:
        groups.tried(trial)
    except Exception:  # whatever it is, the other groups are tried
        trial.check("it comes to its end", False, traceback.format_exc())
    trial.folder.cleanup()
    return Done(asked.name, trial.passed, trial.failed, time.monotonic() - begun, trial.notes, trial.lines)


def sent(asked, pipe):
    """Tries a group, and sends what it came to."""
    signal.signal(signal.SIGINT, signal.SIG_DFL)
    pipe.send(tried(asked))
    pipe.close()


def apart(asked):
    """Tries a group in a process of its own, so that nothing that an earlier group leaves behind can matter; one whose process ends before it has failed."""
    here, there = FORK.Pipe(duplex=False)
    process = FORK.Process(target=sent, args=(asked, there))
    begun = time.monotonic()
    process.start()
    there.close()
    try:
        return here.recv()
    except EOFError:
        process.join()
        print(f"FAILED {asked.name}: its process ended with status {process.exitcode}", flush=True)
        return Done(asked.name, 0, 1, time.monotonic() - begun, [], set())
    finally:
        process.join()


def kept():
    """What is kept of the last time."""
    try:
        return json.loads(Path(KEPT).read_text(encoding="utf-8"))
    except (OSError, ValueError):
        return {"failed": [], "seconds": {}}


def keep(done):
    """Keeps which groups failed, beside those that failed before and were not tried now."""
    last = kept()
    failed = {it.name for it in done if it.failed} | set(last["failed"]) - {it.name for it in done}
    made = {"failed": sorted(failed), "seconds": {**last["seconds"], **{it.name: round(it.seconds, 1) for it in done}}}
    with contextlib.suppress(OSError):
        os.makedirs(os.path.dirname(KEPT), exist_ok=True)
        Path(KEPT).write_text(json.dumps(made, indent=1), encoding="utf-8")


def all_of(program, names, is_whole, jobs):
    """Tries groups, each in a process of its own, as many at once as there are jobs, the longest first; the one that looks at all others comes last."""
    lines, seconds = set(), kept()["seconds"]
    first = [name for name in names if name != groups.LAST]
    if jobs > 1:
        first.sort(key=lambda name: -seconds.get(name, 0))
        with FORK.Pool(jobs, signal.signal, (signal.SIGINT, signal.SIG_DFL), 1) as pool:
            for done in pool.imap_unordered(tried, [Asked(name, program, is_whole, set()) for name in first]):
                lines |= done.lines
                yield done
        first = []
    for name in first + [groups.LAST] * (groups.LAST in names):
        done = apart(Asked(name, program, is_whole, lines))
        lines |= done.lines
        yield done


def some(found):
    """A few lines of many."""
    return found if len(found) <= MOST else [*found[: MOST - 1], f"  .. and {len(found) - MOST + 1} more"]


def summary(done, what, seconds):
    """At most 20 lines, the last of which says how many cases passed and failed."""
    longest = sorted(done, key=lambda it: -it.seconds)[:5]
    yield f"{len(done)} groups of cases of {what} in {seconds:.0f} seconds; most took " + ", ".join(f"{it.name} {it.seconds:.0f}" for it in longest)
    yield from some([f"  not tried in {it.name}: {note[:150]}" for it in done for note in it.notes])
    yield from some([f"  failed in {it.name}: {it.failed} of {it.passed + it.failed}" for it in done if it.failed])
    yield f"{sum(it.passed for it in done)} passed, {sum(it.failed for it in done)} failed"


def run(program, names, is_whole, jobs):
    """Tries groups on a program, prints the summary, and gives the status."""
    what, begun = f"the {'proved' if program.proved else 'unproved'} program {program.path}", time.monotonic()
    done = []
    for it in all_of(program.path, names, is_whole, jobs):
        done.append(it)
        if sys.stderr.isatty():
            print(f"{it.name}: {it.passed} passed, {it.failed} failed, {it.seconds:.0f} seconds", file=sys.stderr)
    keep(done)
    print("\n".join(summary(done, what, time.monotonic() - begun)))
    return 1 if any(it.failed for it in done) else 0
