"""`run` of 200 random networks by 1, 2, 3 and 64 workers: each network has one answer, and together the networks end in each way. Of a run with two workers two threads work,
where there are two processors, and one of a run with one worker. `tests/stress/threads.py PROGRAM` tries more."""
import contextlib
import json
import os
import random
import subprocess
import time
from pathlib import Path

from runner.trial import read

COUNT = 200
WORKERS = ("2", "3", "64")
CELLS = 16


class Ends:
    """The streams of a network made at random: the producer, the consumer and the depth of each, and how many tokens are put and taken in a round; and
    those that end with a transaction's end."""

    def __init__(self, some, tasks):
        self.pairs, self.closed = [], set()
        for at in range(some.randint(1, 2 * tasks)):
            first, second = some.randrange(tasks), some.randrange(tasks)
            if some.random() < 0.85:
                first, second = min(first, second), max(first, second)
            tokens = some.randint(1, 3)
            wanted = tokens if some.random() < 0.97 else some.randint(0, 4)
            self.pairs.append((first, second, some.choice([1, 1, 2, 3, 8]), tokens, wanted))
            if some.random() < 0.04:
                self.closed.add(at)


def steps_of(some, task, ends):
    """What a task does in a round, line by line: it puts and takes tokens, one at a time, in some order."""
    steps = []
    for at, (first, second, _, tokens, wanted) in enumerate(ends.pairs):
        if first == task:
            steps += [f"s{at} << x + {some.randrange(9)};"] * tokens
        if second == task:
            steps += [f"x = x * 3 + r{at}.read();"] * wanted
    if some.random() < 0.25:
        some.shuffle(steps)
    elif some.random() < 0.9:
        steps.sort(key=lambda step: "read" not in step)
    work = some.choice(["", "", "for (int w = 0; w < 40; ++w) { x = x + w; }"])
    return " ".join([*steps, work])


def last_of(task, ends):
    """What it does after its rounds: it ends a transaction, and the reader takes the end for a token."""
    closed = sorted(ends.closed)
    return " ".join([f"s{at}.close();" for at in closed if ends.pairs[at][0] == task] + [f"x = r{at}.read();" for at in closed if ends.pairs[at][1] == task])


def leaf(some, task, ends, rounds, is_endless, has_memory):
    ports = [f"tapa::ostream<uint64_t>& s{at}" for at, pair in enumerate(ends.pairs) if pair[0] == task]
    ports += [f"tapa::istream<uint64_t>& r{at}" for at, pair in enumerate(ends.pairs) if pair[1] == task]
    ports += ["tapa::mmap<uint64_t> m"] * has_memory
    head = "for (;;)" if is_endless else f"for (uint64_t i = 0; i < {rounds}; ++i)"
    store = f" m[x % {CELLS}] = m[{some.randrange(CELLS)}] + x;" if has_memory else ""
    last = "" if is_endless else last_of(task, ends)
    return f"void A{task}({', '.join(ports)}) {{ uint64_t x = {task}; {head} {{ {steps_of(some, task, ends)}{store} }} {last} }}\n"


class Network:
    """A source, its data, and a limit on its ticks."""

    def __init__(self, seed):
        some = random.Random(f"workers {seed}")
        tasks = some.choice([1, 2, 3, 4, 5, 8, 20])
        ends, rounds = Ends(some, tasks), some.choice([1, 3, 20, 200])
        endless = {task for task in range(tasks) if some.random() < 0.08}
        detached = {task for task in range(tasks) if some.random() < (0.7 if task in endless else 0.05)}
        stores = {task for task in range(tasks) if task not in detached and some.random() < 0.1}
        leaves = "".join(leaf(some, task, ends, rounds, task in endless, task in stores) for task in range(tasks))
        streams = " ".join(f"tapa::stream<uint64_t, {pair[2]}> s{at};" for at, pair in enumerate(ends.pairs))
        calls = "".join(self.call(task, ends, task in detached, task in stores) for task in range(tasks))
        tops = ", ".join(f"tapa::mmap<uint64_t> m{task}" for task in sorted(stores))
        self.source = f"{leaves}void T({tops}) {{ {streams} tapa::task(){calls}; }}\n"
        self.data = {"memories": {f"m{task}": [some.randrange(99) for _ in range(CELLS)] for task in sorted(stores)}}
        self.limit = some.choice(["60", "1000", *["1000000"] * 4])

    @staticmethod
    def call(task, ends, is_detached, has_memory):
        own = [f"s{at}" for at, pair in enumerate(ends.pairs) if pair[0] == task]
        own += [f"s{at}" for at, pair in enumerate(ends.pairs) if pair[1] == task]
        own += [f"m{task}"] * has_memory
        return f".invoke{'<tapa::detach>' if is_detached else ''}({', '.join([f'A{task}', *own])})"


def kinds_of(said):
    """How it has ended: by its status, and at a stop by what the lines say."""
    text = said.err.decode()
    return {said.status, *(word for word in ("waits to read", "waits to write", "bad token on") if word in text)}


def try_networks(trial):
    """Each network of a list made at random is told alike by any number of workers, and together they end in each way."""
    found = set()
    for seed in range(COUNT):
        network = Network(seed)
        trial.put("w.cpp", network.source)
        trial.put("w.json", json.dumps(network.data))
        words = ["run", "w.cpp", "T", "w.json", "--steps", network.limit]
        one = trial.run(words)
        found |= kinds_of(one)
        for count in WORKERS:
            said = trial.run([*words, "--workers", count])
            same = (said.status, said.out, said.err) == (one.status, one.out, one.err)
            trial.check(f"network {seed} by {count} workers", same, f"{network.source}   one: {one}   {count}: {said}")
    trial.check_equal("ways in which networks end", found, {0, 7, 8, "waits to read", "waits to write", "bad token on"})


# What a thread has to have worked to count, in nanoseconds.
WORKED = 50_000_000


def busy(tasks, turns):
    """A source of tasks side by side that do nothing but count."""
    calls = "".join(".invoke(A)" for _ in range(tasks))
    return f"void A() {{ uint64_t s = 0; for (uint64_t i = 0; i < {turns}; ++i) {{ s = s + i; }} }}\nvoid T() {{ tapa::task(){calls}; }}\n"


def times_of(process):
    """How long each thread of a process has been on a processor, in nanoseconds by the thread's number; nothing once it has ended."""
    found = {}
    with contextlib.suppress(OSError, ValueError, IndexError):
        for thread in os.listdir(f"/proc/{process.pid}/task"):
            found[thread] = int(Path(f"/proc/{process.pid}/task/{thread}/schedstat").read_text(encoding="ascii").split()[0])
    return found


def working_threads(trial, words):
    """How many threads of a run worked, and its status."""
    process = subprocess.Popen([trial.program, *words], cwd=trial.folder.name, stdout=subprocess.DEVNULL, stderr=subprocess.DEVNULL)
    times = {}
    while process.poll() is None:
        times.update(times_of(process))
        time.sleep(0.005)
    return sum(it >= WORKED for it in times.values()), process.returncode


def try_threads(trial):
    """Two workers are two threads that work, where there are two processors; one worker is one thread."""
    if len(os.sched_getaffinity(0)) < 2 or not os.path.exists("/proc/self/schedstat"):
        trial.note("workers: whether two threads work is not tried: there is one processor, or nothing tells the time of a thread")
        return
    trial.put("w.cpp", busy(64, 600_000))
    words = ["run", "w.cpp", "T", "--steps", "1000000000"]
    for count, wanted in (("1", 1), ("2", 2)):
        trial.check_equal(f"threads that work in a run with --workers {count}, and its status", working_threads(trial, [*words, "--workers", count]), (wanted, 0))
    trial.check_equal("threads that work in a run without --workers, and its status", working_threads(trial, words), (1, 0))


# Two tasks that hand tokens to and fro, so that their batches are small, and then have much to do each by itself, twice.
PHASES = read("tests/cases/files/phases.cpp")


def try_phases(trial):
    """Workers share a network while its batches are large, and leave it to one thread while they are small: it ends as by one worker."""
    trial.put("w.cpp", PHASES)
    one, two = (trial.run(["run", "w.cpp", "T", "--workers", count]) for count in "12")
    trial.check("small and large batches by turns", (one.status, one.out, one.err) == (two.status, two.out, two.err) and one.status == 0, f"   one: {one}   two: {two}")
    trial.check_equal("ticks of small and large batches by turns", one.out.splitlines()[-1], b"done 800032")
