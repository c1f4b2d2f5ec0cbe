#!/usr/bin/env python3
"""Gives a built `tapa` random and changed inputs, and looks whether each answer is one that docs/COMMAND.md and docs/PROMISES.md allow.

    tests/stress/floods.py PROGRAM [--seconds N] [--seed S]

The good files are the examples, their circuits, devices and dumps, random networks, and random sources with stream arrays. Sources, data, device files, Verilog texts, dumps and words are changed: bytes, tokens,
sizes, nesting, numbers at bounds, and parts of two files in one. Each call has 10 seconds and 2 GB of memory, and its output goes to a file. An input is a command
with its files; it is kept in the folder that the first line names where its answer is wrong: a signal, no end, a status or a message that is not
documented, output where there may be none, another answer with other workers. So are the inputs that took each command most time and memory. The last line is
`N inputs, M findings`.
"""
import collections
import json
import os
import random
import re
import shutil
import sys
import tempfile
import time
from pathlib import Path

sys.dont_write_bytecode = True
sys.path.insert(0, os.path.dirname(os.path.dirname(os.path.abspath(__file__))))
from runner.groups import arrays, grammar as changes  # noqa: E402
from runner.made import leaves, mutants  # noqa: E402
from runner.made.programs import device, random_network  # noqa: E402
from runner.made.hostile import Caller, Judge  # noqa: E402
from runner.trial import first_words, read, sources  # noqa: E402
from vechaqir import script  # noqa: E402

SECONDS, MEMORY = 10, 2 << 30
DEVICES = [device(2, 1, 9000, []), device(4, 2, 2000, []), '{"version": 2, "rows": 2, "cols": 2, "slots": [{"LUT": 900, "FF": 900}, {"LUT": 900, "FF": 900}, {"LUT": 900, "FF": 900}, {"LUT": 900, "FF": 900}], "levels_rows": [3], "levels_cols": [1], "forbidden": [[1, 1]]}']
WORDS = [b"", b"-", b"--", b"-x", b"--steps", b"--steps=", b"--steps=0", b"--steps=1000000000000", b"--steps=1000000000001", b"--steps=00000000000000000001", b"--workers=0", b"--workers=64", b"--workers=65", b"--workers",
         b"64", b"1", b"--cycles=5", b"--cycles=99999999999999999999", b"--plan", b"--plan=split", b"--plan=exact", b"--plan=", b"fit", b"exact", b"--device", b"--device=d.json", b"--no-balance", b"--no-balance=1", b"--vcd",
         b"--vcd=w.vcd", b"gen", b"vcd", b"run", b"build", b"plan", b"cosim", b"--help", b"\xff", "☃".encode(), b"a" * 5000, b"/", b"/dev/null", b"none", b"T", b"VecAdd", b"r.cpp", b"v.json", b"x.v", b"d.json"]


class Input:
    """A command's words, and the files that it reads by name."""

    def __init__(self, words, files):
        self.words, self.files = [word if isinstance(word, bytes) else word.encode() for word in words], files
        self.verb = self.words[0].decode("utf-8", "replace") if self.words else ""


class Good:
    """A good source with its top task, data, device and Verilog text."""

    def __init__(self, source, top, data=b"{}", given=b"{}"):
        self.source, self.top, self.data, self.device, self.text, self.dump = source, top, data, given, b"", b""


def examples():
    """The good files of the repository."""
    for path in sources("examples"):
        source, (_, top, *data) = read(path), first_words(path)
        yield Good(source.encode(), top, (read(data[0]) if data else "{}").encode(), DEVICES[len(source) % len(DEVICES)].encode())
    yield Good(read("tests/cases/circuits/features.cpp").encode(), "Top", read("tests/cases/circuits/features.json").encode(), DEVICES[0].encode())
    for name in ("detached", "operators", "states"):
        source = read(f"tests/cases/circuits/{name}.cpp")
        first = source.split("\n", 1)[0].split(" ", 2)
        yield Good(source.encode(), first[1], first[2].encode(), DEVICES[1].encode())


class Flood:
    """All inputs of a seed, one by one."""

    def __init__(self, caller, seed):
        self.some, self.caller = random.Random(seed), caller
        self.stock = changes.Stock()
        self.goods = list(examples())
        for good in self.goods:
            caller.put("r.cpp", good.source)
            good.text = caller.call([b"build", b"r.cpp", good.top.encode()]).out
            if not good.text:
                raise SystemExit(f"tests/stress/floods.py: no circuit of {good.top}")
            caller.put("x.v", good.text)
            caller.put("d.json", good.data)
            good.dump = caller.call([b"cosim", b"x.v", b"d.json", b"--cycles=60", b"--vcd"]).out
            if not good.dump:
                raise SystemExit(f"tests/stress/floods.py: no dump of {good.top}")

    def text(self, good, field):
        """A changed text: a source, data, a device file, a Verilog text or a dump."""
        own, other = getattr(good, field), getattr(self.some.choice(self.goods), field)
        if self.some.random() < 0.02:
            return mutants.noise(self.some)
        if field == "source" and self.some.random() < 0.3:
            return self.by_grammar(good)
        if field == "device" and self.some.random() < 0.3:
            return mutants.at_bounds(self.some, own)
        if field in ("data", "device") and self.some.random() < 0.5:
            return mutants.tree(self.some, own, other)
        return mutants.changed(self.some, own, other)

    def by_grammar(self, good):
        """A source made by the grammar, of which words may be changed for words of their kind; a random leaf with every construct; or parts of two designs."""
        way = self.some.randrange(3)
        if way == 0:
            return self.stock.source(self.some.randrange(10**9))
        if way == 1:
            leaf = leaves.source(self.some.randrange(10**9)).encode()
            return leaf if self.some.random() < 0.3 else mutants.changed(self.some, leaf, good.source)
        ours, theirs = (changes.items(changes.words_of(it.source)) for it in (good, self.some.choice(self.goods)))
        mixed = [self.some.choice((mine, other)) for mine, other in zip(ours, theirs)] + ours[len(theirs):]
        return b"".join(changes.text_of(part) for part in mixed)

    def files(self, good, fields):
        """Files by name, of which one is changed, sometimes two."""
        chosen = self.some.sample(fields, 2 if len(fields) > 1 and self.some.random() < 0.1 else 1)
        names = {"source": "r.cpp", "data": "d.json", "device": "v.json", "text": "x.v", "dump": "w.vcd"}
        return {names[field]: self.text(good, field) if field in chosen else getattr(good, field) for field in fields}

    def run(self):
        good = self.some.choice(self.goods)
        steps = self.some.choice([1, 100, 5000, 5000, 100_000, 1_000_000])
        return Input(["run", "r.cpp", good.top, "d.json", f"--steps={steps}", f"--workers={self.some.choice([1, 2, 64])}"], self.files(good, ["source", "source", "data"]))

    def built(self):
        good = self.some.choice(self.goods)
        return Input(["build", "r.cpp", good.top], self.files(good, ["source"]))

    def planned(self):
        """A plan, or a circuit for a device, of an example or of a random network, the files of which may be as they are."""
        is_random = self.some.random() < 0.5
        good = Good(*random_network(self.some)) if is_random else self.some.choice(self.goods)
        files = {"r.cpp": good.source, "v.json": good.device} if is_random and self.some.random() < 0.7 else self.files(good, ["source", "device", "device"])
        mode = ["--plan", self.some.choice(["fit", "exact", "split"])]
        if self.some.random() < 0.3:
            return Input(["build", "r.cpp", good.top, "--device", "v.json", *mode, *self.some.choice([[], [], ["--no-balance"]])], files)
        return Input(["plan", "r.cpp", good.top, "v.json", *mode], files)

    def simulated(self):
        good = self.some.choice(self.goods)
        return Input(["cosim", "x.v", "d.json", f"--cycles={self.some.choice([1, 7, 100, 100, 3000])}"], self.files(good, ["text", "text", "text", "data"]))

    def dumped(self):
        good = self.some.choice(self.goods)
        return Input(["cosim", "x.v", "d.json", f"--cycles={self.some.choice([1, 7, 100, 100, 1000])}", "--vcd"], self.files(good, ["text", "text", "data"]))

    def shown(self):
        """The values of a net, by a changed dump."""
        good = self.some.choice(self.goods)
        names = re.findall(rb"^\$var \w+ \d+ \S+ (\S+) \$end$", good.dump, re.M)
        net = self.some.choice([*names, *names, b"none", b"clk", b"", b"$end"])
        return Input(["vcd", "w.vcd", net], self.files(good, ["dump"]))

    def generated(self):
        layers = self.some.choice([0, 1, 1, 2, 3, 5, 8, 20, 126, 127, 1000, 10 ** 18, 10 ** 20])
        return Input(["gen", str(layers), *self.some.choice([[], [f"--workers={self.some.choice([0, 1, 2, 64, 65])}"]])], {})

    def arrayed(self):
        """A random source with stream arrays and counted invokes, as it is or changed: run, built, or planned."""
        source = arrays.Source(self.some.random(), most_changes=self.some.choice([0, 2, 5])).text().encode()
        if self.some.random() < 0.4:
            source = mutants.changed(self.some, source, self.some.choice(self.goods).source)
        words = self.some.choice([["run", "r.cpp", "T", f"--steps={self.some.choice([10, 5000])}"], ["build", "r.cpp", "T"], ["plan", "r.cpp", "T", "v.json"]])
        return Input(words, {"r.cpp": source, "v.json": DEVICES[1].encode()})

    def spoken(self):
        """Changed words over good files that come to an end."""
        good = next(it for it in self.goods if it.top == "VecAdd")
        lines = [["run", "r.cpp", "VecAdd", "d.json", "--steps", "1000", "--workers", "2"], ["build", "r.cpp", "VecAdd", "--device", "v.json", "--plan", "exact"], ["plan", "r.cpp", "VecAdd", "v.json", "--plan=split"], ["cosim", "x.v", "d.json", "--cycles", "90"], ["cosim", "x.v", "d.json", "--cycles", "9", "--vcd"], ["vcd", "w.vcd", "done"], ["gen", "2", "--workers", "2"]]
        words = [word.encode() for word in self.some.choice(lines)]
        for _ in range(self.some.choice([1, 1, 2, 3])):
            at, way = self.some.randint(0, len(words)), self.some.randrange(5)
            if way == 0:
                words[at:at] = [self.some.choice(WORDS)]
            elif way == 1:
                words[at:at + 1] = [self.some.choice(WORDS)]
            elif way == 2:
                words[at:at + 1] = []
            elif way == 3:
                self.some.shuffle(words)
            else:
                words[at:at + 1] = [mutants.changed(self.some, word, b"--steps=").replace(b"\0", b"")[:9000] for word in words[at:at + 1]]
        return Input(words, {"r.cpp": good.source, "d.json": good.data, "v.json": good.device, "x.v": good.text, "w.vcd": good.dump})

    def next(self):
        ways = [(self.run, 24), (self.arrayed, 12), (self.built, 8), (self.planned, 18), (self.simulated, 12), (self.dumped, 8), (self.shown, 10), (self.generated, 1), (self.spoken, 7)]
        return self.some.choices([way for way, _ in ways], [weight for _, weight in ways])[0]()


class Found:
    """What has been seen: counts, the most of each command, and the folder of what is kept."""

    def __init__(self, folder):
        self.folder, self.counts, self.most = folder, collections.Counter(), {}
        self.inputs, self.findings = 0, 0

    def keep(self, name, given, told):
        """Writes an input with its files to the folder."""
        path = os.path.join(self.folder, name)
        shutil.rmtree(path, ignore_errors=True)
        os.makedirs(path)
        for file, text in given.files.items():
            Path(path, file).write_bytes(text)
        Path(path, "words").write_text(json.dumps([word.decode("utf-8", "backslashreplace") for word in given.words]) + "\n" + told + "\n", encoding="utf-8")

    def count(self, given, verb, answer):
        self.inputs += 1
        self.counts[verb, answer.status] += 1
        for what, got, least in (("seconds", answer.seconds, 0.5), ("memory", answer.memory, 60_000)):
            if got > self.most.get((verb, what), 0):
                self.most[verb, what] = got
                if got > least:
                    self.keep(f"most_{what}_{verb}", given, f"{got}")

    def finding(self, given, wrong):
        self.findings += 1
        print(f"FOUND {self.findings}: {given.words[:8]}: {'; '.join(wrong)}"[:1000], flush=True)
        if self.findings <= 1000:
            self.keep(f"found_{self.findings}", given, "\n".join(wrong))

    def show(self):
        for verb, status in sorted(self.counts):
            print(f"{verb} status {status}: {self.counts[verb, status]}")
        for verb in sorted({verb for verb, _ in self.counts}):
            print(f"{verb}: at most {self.most[verb, 'seconds']:.2f} processor seconds, {self.most[verb, 'memory'] / 1024:.0f} MB")
        print(f"{self.inputs} inputs, {self.findings} findings", flush=True)


def try_input(caller, judge, found, given):
    """Calls the program, and looks at its answer; a tenth of the runs with other workers too."""
    verb = given.verb if given.verb in ("run", "build", "plan", "cosim", "vcd", "gen") else "other words"
    verb = "build --device" if verb == "build" and any(word.startswith(b"--device") for word in given.words) else verb
    verb = "cosim --vcd" if verb == "cosim" and b"--vcd" in given.words else verb
    for name, text in given.files.items():
        caller.put(name, text)
    answer = caller.call(given.words)
    found.count(given, verb, answer)
    names = [word.decode("utf-8", "surrogateescape") for word in given.words for word in (word, word.split(b"=", 1)[-1])]
    wrong = judge.wrong(answer, "cosim --vcd" if verb == "cosim --vcd" else given.verb, names)
    workers = [at for at, word in enumerate(given.words) if word.startswith(b"--workers=")]
    if verb == "run" and len(workers) == 1 and len(given.words) == 6 and found.inputs % 10 == 0:
        words = list(given.words)
        words[workers[0]] = b"--workers=3"
        again = caller.call(words)
        if (again.status, again.out, again.err) != (answer.status, answer.out, answer.err):
            wrong.append(f"another answer with 3 workers: {again.status} {again.err[:100]}")
    if wrong:
        found.finding(given, wrong)


@script.words(*script.PROGRAM)
@script.word("--seconds", metavar="N", type=script.number(1), default=60, help="how long, 60 seconds if not given")
@script.word("--seed", metavar="S", type=script.number(), default=1, help="where the chance of the inputs begins, 1 if not given")
def main(asked):
    found = Found(tempfile.mkdtemp(prefix="tapa-floods-"))
    print(f"what is found is kept in {found.folder}; seed {asked.seed}", flush=True)
    shared = "/dev/shm" if os.path.isdir("/dev/shm") else None
    with tempfile.TemporaryDirectory(prefix="tapa-floods-", dir=shared) as folder:
        caller, judge = Caller(asked.program, folder, SECONDS, MEMORY), Judge()
        try:
            flood, end = Flood(caller, asked.seed), time.monotonic() + asked.seconds
            while time.monotonic() < end:
                try_input(caller, judge, found, flood.next())
        finally:
            os.chdir("/")
            found.show()
    return 1 if found.findings else 0


if __name__ == "__main__":
    script.call(main)
