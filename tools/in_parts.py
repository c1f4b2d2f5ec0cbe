#!/usr/bin/env python3
"""Stands in for the kit's `clang` where tools/unproved.py builds: optimises a module, in as many parts as there are processors, all at once.

    tools/in_parts.py KIT WORDS..

WORDS are those of `clang` that make an object file of the module behind `-x ir`. Of its functions those are left out that `main` does not reach. A function that only
one other calls stays in that one's part, and a small one is copied into each part that calls it, so that what was inlined in the whole module is inlined still. Where
a module is small, there is one processor, or a part cannot be made, the module is compiled as a whole.
"""
import os
import re
import subprocess
import sys
from pathlib import Path
from argparse import REMAINDER

sys.dont_write_bytecode = True
from vechaqir import script  # noqa: E402

# A module of fewer bytes is not cut; a function whose text has at most this many is copied.
WHOLE, COPIED = 1_000_000, 1_500
NAME = re.compile(rb'@(?:"[^"]*"|[\w$.]+)')
# What the checked run writes into cells that nothing has been stored in yet.
FILL = re.compile(rb"  call void @llvm\.memset\.p0\.i64\([^\n]* i8 -86, [^\n]*\n")
GLOBAL = re.compile(rb"(@[^ ]+) = private (global|constant) (.*)")


class Module:
    """A module's text: the lines before its functions, its globals, functions and declarations by name, and the lines behind."""

    def __init__(self, text):
        head, *pieces = text.split(b"\ndefine ")
        self.front = [line for line in head.split(b"\n") if line.startswith((b"source_filename", b"target "))]
        self.globals = {NAME.match(line)[0]: line for line in head.split(b"\n") if line.startswith(b"@")}
        self.functions, between = {}, [head]
        for piece in pieces:
            end = piece.index(b"\n}\n") + 3
            self.functions[NAME.search(piece)[0]] = b"define " + piece[:end]
            between.append(piece[end:])
        lines = [line for rest in between for line in rest.split(b"\n")]
        self.declared = [line for line in lines if line.startswith(b"declare ")]
        self.back = [line for line in lines if line.startswith((b"attributes ", b"!"))]

    def shared(self):
        """The globals that are one cell for all parts, since their addresses may be compared or their values change."""
        return [name for name, line in self.globals.items() if b"unnamed_addr constant" not in line]


class Cut:
    """How a module is cut: which functions are needed, what each names, who calls it, and in which part it is."""

    def __init__(self, module, parts):
        self.module, self.parts = module, parts
        self.bound = {name for line in module.globals.values() for name in NAME.findall(line)[1:] if name in module.functions}
        self.names, self.order, self.callers = {}, [], {}
        self.reach()
        small = {name for name in self.order if len(module.functions[name]) <= COPIED}
        self.copied = small - self.bound - {b"@main"}
        self.part = self.placed()

    def reach(self):
        """Finds what `main` and the globals reach, from callers to what they call."""
        functions, waiting, found = self.module.functions, [*self.bound, b"@main"], set()
        while waiting:
            name = waiting.pop()
            if name in found:
                continue
            found.add(name)
            self.order.append(name)
            functions[name] = FILL.sub(b"", functions[name])
            self.names[name] = list(dict.fromkeys(NAME.findall(functions[name])[1:]))
            called = [it for it in self.names[name] if it in functions and it != name]
            for it in called:
                self.callers.setdefault(it, []).append(name)
            waiting += reversed(called)

    def leader(self, name, over):
        """The function in whose part this one stays."""
        while name in over:
            name = over[name]
        return name

    def placed(self):
        """The part of each function that is not copied: neighbours in the order of calls, and about as much text in each part."""
        over = {}
        for name in self.order:
            callers = self.callers.get(name, [])
            if name not in self.copied and name not in self.bound and len(callers) == 1 and callers[0] not in self.copied and self.leader(callers[0], over) != name:
                over[name] = callers[0]
        groups = {}
        for name in self.order:
            if name not in self.copied:
                groups.setdefault(self.leader(name, over), []).append(name)
        sizes = [sum(len(self.module.functions[name]) for name in group) for group in groups.values()]
        placed, before = {}, 0
        for group, size in zip(groups.values(), sizes):
            placed.update(dict.fromkeys(group, before * self.parts // sum(sizes)))
            before += size
        return placed

    def is_visible(self, name):
        """Whether another part may call a function."""
        return name in self.bound or any(it in self.copied or self.part[it] != self.part[name] for it in self.callers.get(name, []))


def global_in(cut, part, name):
    """The line of a global in a part, which has it by itself, or shares that of part 0."""
    line = cut.module.globals[name]
    if b"unnamed_addr constant" in line:
        return line
    if part == 0:
        return line.replace(b" = private ", b" = hidden ", 1)
    label, sort, rest = GLOBAL.fullmatch(line).groups()
    depth = end = 0
    while depth or rest[end:end + 1] not in (b" ", b""):
        depth += {b"[": 1, b"{": 1, b"<": 1, b"(": 1, b"]": -1, b"}": -1, b">": -1, b")": -1}.get(rest[end:end + 1], 0)
        end += 1
    return label + b" = external hidden " + sort + b" " + rest[:end]


def declaration(function):
    """The declaration of a function of another part."""
    head = function[:function.index(b"\n")].removesuffix(b" {")
    return re.sub(rb" %a\d+(?=[,)])", b"", head).replace(b"define internal ", b"declare hidden ", 1).replace(b"define ", b"declare ", 1)


def text_of(cut, part):
    """The text of one part."""
    module = cut.module
    inside = [name for name in cut.order if cut.part.get(name) == part]
    has, waiting, outside = set(inside), list(inside), []
    for name in module.shared() if part == 0 else []:
        outside += [it for it in NAME.findall(module.globals[name])[1:] if it in module.functions]
    while waiting:
        for name in cut.names[waiting.pop()]:
            if name in cut.copied and name not in has:
                has.add(name)
                inside.append(name)
                waiting.append(name)
            elif name in module.functions and name not in cut.copied:
                outside.append(name)
    used = dict.fromkeys(it for name in inside for it in cut.names[name] if it in module.globals)
    used = dict.fromkeys([*used, *module.shared()]) if part == 0 else used
    lines = [*module.front, *(global_in(cut, part, name) for name in used)]
    for name in inside:
        function = module.functions[name]
        lines.append(function.replace(b"define internal ", b"define hidden ", 1) if name not in cut.copied and cut.is_visible(name) else function)
    lines += [declaration(module.functions[name]) for name in dict.fromkeys(outside) if name not in has]
    return b"\n".join([*lines, *module.declared, *module.back, b""])


def words_for(words):
    """The words of `clang` with the optimiser, and without the sanitizer."""
    optimised = ["-O1", "-mllvm", "-inline-threshold=0"]
    return [it for word in words if word != "-fsanitize=address" for it in (optimised if word == "-O0" else [word])]


def compile_parts(kit, words, source, made):
    """Makes the object file of a module in parts. Whether that could be done."""
    clang, count = f"{kit}/toolchain/bin/clang", len(os.sched_getaffinity(0))
    if os.path.getsize(source) < WHOLE or count < 2:
        return False
    listing = f"{source}.ll"
    if subprocess.run([clang, "--no-default-config", "-x", "ir", source, "-S", "-emit-llvm", "-O0", "-Xclang", "-disable-llvm-passes", "-o", listing], check=False).returncode:
        return False
    cut = Cut(Module(Path(listing).read_bytes()), min(count, 16))
    os.remove(listing)
    running, objects = [], []
    for part in range(cut.parts):
        Path(f"{source}.{part}.ll").write_bytes(text_of(cut, part))
        objects.append(f"{source}.{part}.o")
        given = {source: f"{source}.{part}.ll", made: objects[-1]}
        running.append(subprocess.Popen([clang, *(given.get(word, word) for word in words)]))
    if any([it.wait() for it in running]):
        return False
    return subprocess.run([f"{kit}/toolchain/bin/ld.lld", "-r", "-o", made, *objects], check=False).returncode == 0


@script.word("kit", metavar="KIT", help="the folder of the kit")
@script.word("words", metavar="WORDS", nargs=REMAINDER, help="those of `clang`")
def main(asked):
    words = words_for(asked.words)
    if "-c" in words and "-x" in words[:-2] and "-o" in words[:-1]:
        source, made = words[words.index("-x") + 2], words[words.index("-o") + 1]
        if compile_parts(asked.kit, words, source, made):
            return
    os.execv(f"{asked.kit}/toolchain/bin/clang", ["clang", *words])


if __name__ == "__main__":
    script.call(main)
