#!/usr/bin/env python3
"""Runs networks by 1 to 64 workers again and again on a loaded machine: each has one answer, however its workers take turns, and none hangs.

    tests/stress/threads.py PROGRAM [--runs N] [--seed S]

The networks are twenty: random ones of tests/runner/groups/workers.py that end in all ways, and some with much to do, of which one makes small batches and
large ones by phases. Beside them two processes for each processor do nothing but use it, and four runs are made at once. Some of them have all of their
threads put on one processor while they run, once the program has looked how many processors there are. A run that has not ended after 60 seconds is a hang. The last line is
`N runs, M findings`.
"""
import concurrent.futures
import contextlib
import json
import os
import random
import subprocess
import sys
import tempfile
import threading
import time
from pathlib import Path

sys.dont_write_bytecode = True
sys.path.insert(0, os.path.dirname(os.path.dirname(os.path.abspath(__file__))))
from runner.groups.workers import Network  # noqa: E402
from runner.made.programs import apart, by_phases, hub  # noqa: E402
from vechaqir import script  # noqa: E402

NETWORKS, SECONDS, AT_ONCE = 20, 60, 4


def networks(seed):
    """Sources with their data and a limit: random ones, and some with much to do."""
    given = [(it.source, "T", it.data, it.limit) for it in [Network(f"{seed} {at}") for at in range(NETWORKS - 4)]]
    more = apart(64, 3000), hub(12, 200), apart(3, 60_000), by_phases(3_000, 20_000, 4)
    return given + [(source, "Top", {}, "1000000") for source in more]


def confine(process):
    """Puts the threads of a process on one processor, those that it starts meanwhile too, until it ends."""
    while process.poll() is None:
        with contextlib.suppress(OSError):
            for thread in os.listdir(f"/proc/{process.pid}/task"):
                os.sched_setaffinity(int(thread), {0})
        time.sleep(0.001)


class Runs:
    """The runs of all networks, and what was found."""

    def __init__(self, program, folder, seed):
        self.program, self.folder, self.some = os.path.abspath(program), folder, random.Random(f"threads {seed}")
        self.lock, self.findings, self.statuses = threading.Lock(), [], {}
        self.words, self.wanted = [], []
        for at, (source, top, data, limit) in enumerate(networks(seed)):
            for name, text in ((f"{at}.cpp", source), (f"{at}.json", json.dumps(data))):
                Path(folder, name).write_text(text, encoding="utf-8")
            self.words.append(["run", f"{at}.cpp", top, f"{at}.json", "--steps", limit])
            self.wanted.append(self.answer(self.words[at]))

    def answer(self, words, is_confined=False):
        """The status and both outputs; none where it has not ended."""
        with subprocess.Popen([self.program, *words], cwd=self.folder, stdout=subprocess.PIPE, stderr=subprocess.PIPE) as process:
            if is_confined:
                threading.Thread(target=confine, args=(process,), daemon=True).start()
            try:
                out, err = process.communicate(timeout=SECONDS)
            except subprocess.TimeoutExpired:
                process.kill()
                return None
        return process.returncode, out, err

    def work(self, chosen):
        for at, workers, alone in chosen:
            said = self.answer([*self.words[at], "--workers", str(workers)], alone)
            with self.lock:
                status = said[0] if said else "hang"
                self.statuses[status] = self.statuses.get(status, 0) + 1
                if said != self.wanted[at]:
                    self.findings.append(f"network {at} by {workers} workers{' on one processor' if alone else ''}: {str(said)[:300]}\n  one worker: {str(self.wanted[at])[:300]}")
                    print(f"FOUND {self.findings[-1]}", flush=True)

    def run(self, count):
        chosen = [(at % NETWORKS, self.some.choice([1, 2, 3, 4, 5, 8, 16, 33, 63, 64]), self.some.random() < 0.1) for at in range(count)]
        with concurrent.futures.ThreadPoolExecutor(AT_ONCE) as crew:
            list(crew.map(self.work, [chosen[at::AT_ONCE] for at in range(AT_ONCE)]))


def load():
    """Processes that do nothing but use the processors."""
    return [subprocess.Popen([sys.executable, "-c", "while True: pass"]) for _ in range(2 * len(os.sched_getaffinity(0)))]


@script.words(*script.PROGRAM)
@script.word("--runs", metavar="N", type=script.number(1), default=1000, help="how many runs, 1,000 if not given")
@script.word("--seed", metavar="S", type=script.number(), default=1, help="where their chance begins, 1 if not given")
def main(asked):
    with tempfile.TemporaryDirectory(prefix="tapa-threads-") as folder:
        runs, busy = Runs(asked.program, folder, asked.seed), load()
        try:
            runs.run(asked.runs)
        finally:
            for one in busy:
                one.kill()
                one.wait()
    print("by status: " + ", ".join(f"{status}: {number}" for status, number in sorted(runs.statuses.items(), key=str)))
    print(f"{asked.runs} runs, {len(runs.findings)} findings")
    return 1 if runs.findings else 0


if __name__ == "__main__":
    script.call(main)
