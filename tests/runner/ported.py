"""Many sources through `tools/port.py` at once: each is ported in this process, and their originals are one native program, so that a source takes half a second of CPU time. It needs libclang's binding."""
import json
import os
import subprocess
import sys
import tempfile
import threading
from typing import NamedTuple

from vechaqir.port import faults, porting, worker
from vechaqir.port.check import compare, native
from vechaqir.port.tree.kinds import Carrier


class Source(NamedTuple):
    """A source, whose top task is `top`, with its data, and how many places of it are left."""

    name: str
    text: str
    top: str
    data: list
    left: int = 0


class Originals:
    """The originals of some sources as one native program, each in a namespace of its own."""

    def __init__(self, programs, folder):
        self.folder, self.path = folder, os.path.join(folder, "originals")
        parts = "".join(f"namespace source_{at} {{\n{native.named(it)}\n{native.driver(it).replace('int main(int, char** argv)', 'void run(char** argv)')}}}\n" for at, it in enumerate(programs))
        calls = "".join(f"  if (std::atoi(argv[2]) == {at}) source_{at}::run(argv);\n" for at in range(len(programs)))
        with open(self.path + ".cpp", "w", encoding="latin-1") as file:
            file.write(f"#include <tapa.h>\n#include <ap_int.h>\n{parts}int main(int, char** argv) {{\n{calls}}}\n")
        words = [native.compiler(), "-std=c++17", "-O0", "-w", "-fwrapv", "-I", native.HEADERS, "-o", self.path, self.path + ".cpp"]
        made = subprocess.run(words, capture_output=True, text=True, check=False)
        self.refused = made.stderr if made.returncode else ""

    def one(self, at):
        """What compares a ported source with its original."""
        return One(self, at)


class One:
    def __init__(self, originals, at):
        self.originals, self.at = originals, at

    def run(self, data):
        path = self.originals.path + ".data"
        with open(path, "w", encoding="ascii") as file:
            file.write(native.data_text(data))
        try:
            ran = subprocess.run([self.originals.path, path, str(self.at)], capture_output=True, text=True, timeout=native.SECONDS, check=False)
        except subprocess.TimeoutExpired:
            raise faults.Unusable("the original had not ended") from None
        if ran.returncode:
            raise faults.Unusable(f"the original ended with the status {ran.returncode}: {ran.stderr}")
        return ran.stdout.splitlines()


def ported(source, folder):
    """The port of a source, or what ended it."""
    path = os.path.join(folder, "original.cpp")
    with open(path, "w", encoding="utf-8") as file:
        file.write(source.text)
    try:
        return porting.ported(path, source.top), ""
    except Exception as why:  # whatever it is, it is a find
        return None, f"{type(why).__name__}: {why}"


def differing(source, made, original, folder, program):
    """The first line in which a ported source and its original differ; the empty text if there is none."""
    path = os.path.join(folder, "data.json")
    for data in source.data:
        for it in made.program.top.parameters:   # memories of structs have one for each word
            if isinstance(it.kind, Carrier):
                data["memories"].setdefault(it.name, [0] * 8)
        with open(path, "w", encoding="utf-8") as file:
            json.dump(data, file)
        try:
            other = compare.compared(made.program, made.text, path, program, original).other
        except (faults.Unusable, faults.Refused) as why:
            other = [str(why)]
        if other:
            return f"{other[0]} on {json.dumps(data)}"
    return ""


def finds(sources, program):
    """Each source that is not as it should be, and what is wrong with it."""
    with tempfile.TemporaryDirectory(prefix="tapa-port-") as folder:
        known, found = [], []
        for it in sources:
            made, why = ported(it, folder)
            left = made.marks if made else []
            if made is None or len(left) != it.left:
                found.append((it, why or f"{len(left)} left: {'; '.join(map(str, left[:3]))}"))
            elif not left:
                known.append((it, made))
        return found + compared(known, folder, program)


def compared(known, folder, program):
    """Which of some ported sources differ from their originals; where g++ refuses those together, each half by itself."""
    if not known:
        return []
    originals = Originals([made.program for _, made in known], folder)
    if originals.refused and len(known) == 1:
        return [(known[0][0], f"g++: {next((line for line in originals.refused.splitlines() if 'error' in line), originals.refused[:300])}")]
    if originals.refused:
        half = len(known) // 2
        return compared(known[:half], folder, program) + compared(known[half:], folder, program)
    whys = [(it, differing(it, made, originals.one(at), folder, program)) for at, (it, made) in enumerate(known)]
    return [(it, why) for it, why in whys if why]


def in_large_stack(call):
    """Calls a function where expressions may nest as deep as in the tool itself."""
    sys.setrecursionlimit(worker.DEPTH)
    threading.stack_size(worker.STACK)
    answers = []
    thread = threading.Thread(target=lambda: answers.append(call()))
    thread.start()
    thread.join()
    return answers[0] if answers else 1
