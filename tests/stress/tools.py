#!/usr/bin/env python3
"""Gives each script of tools/ that reads files thousands of hostile inputs: cut, changed, binary, deep, of another sort, missing, folders, and words that are none.

    tests/stress/tools.py PROGRAM [--only NAME,..] [--count N] [--first N] [--seed S]

Each call is a process of its own, with 20 seconds of CPU time and 3 GB. A finding is a traceback, an exception of Python or its words in place of a sentence of the tool, a signal,
a call without an end, an explanation that failed, or a status that no page has. It is printed, and its folder is kept. The last line is `N passed, M failed`.
"""
import gc
import importlib.util
import json
import os
import pkgutil
import random
import re
import resource
import shutil
import signal
import sys
import tempfile
import traceback
from pathlib import Path

sys.dont_write_bytecode = True
sys.path.insert(0, os.path.dirname(os.path.dirname(os.path.abspath(__file__))))
from runner.made import mutants  # noqa: E402
from runner.trial import ROOT, Trial, first_words, read  # noqa: E402
import vechaqir  # noqa: E402
from vechaqir import script, tables  # noqa: E402

# The words of each script. A word in capitals is a file of that sort, and a last one after `<` is standard input.
CALLS = {name: calls for name, *calls in tables.rows(os.path.join(ROOT, "tests/stress/tools.rows"))}
EXAMPLES = ("vector_add", "run_length", "lanes", "two_ways", "too_shallow", "bad_token")
ENDS = {"SRC": "cpp", "DATA": "json", "DEV": "dev.json", "CIRCUIT": "v", "DUMP": "vcd", "WAVES": "vcd", "PAGE": "md"}
WORDS = ["", "-", "--", "-h", "--help", "--json", "--x=y", "-1", "0", "9" * 25, "a" * 5000, "\udcff", "T\n", "--from", "--nets", "$", "a=b", "..", "/", "/dev/null", "/dev/full", "/proc/self/mem", "é", "{}", "[", "*", "--device", "--plan", "exact"]
TOLD = b"tapa: in.cpp:3:9: C1 unknown name\ntapa: in.json: J2 scalars.n\ntapa: in.dev.json: K1 slots\ntapa: too many plans: 4 slots, 30 free groups\ntapa: more than 5 ticks\ntapa: cannot read in.cpp\ntapa: no room for A$0\n"
# What a tool says where it did not expect an exception, and how Python words its own ones on standard error: none of them says what is wrong with which file.
OWN = re.compile(
    f"{script.UNEXPECTED}|codec can't|index out of range|invalid literal for|maximum recursion depth|instance, .* found|object is not|object has no|not supported between|not subscriptable"
    "|unhashable type|unsupported operand|positional arguments? but|required positional|(?:has to|must) be (?:a )?(?:str|integer|string|bytes|real)|substring not found|is not in list|values to unpack|could not convert|Expecting (?:value|property|',')"
    "|division by zero|Exceeds the limit|surrogates not allowed|non-zero exit status|cannot convert|NoneType|pop from an empty|embedded null|math domain")
SECONDS, WALL, MEMORY = 20, 3000, 3 * 2**30


def seeds(program):
    """For each example a good text of each sort, and its top task."""
    trial = Trial(program, is_whole=False)
    for name in EXAMPLES:
        source, top, *more = first_words(f"examples/{name}.cpp")
        data = [it for it in more if it.endswith(".json")]
        texts = {"SRC": read(source).encode(), "TOP": top.encode(), "DATA": read(data[0]).encode() if data else b"{}", "NAME": b"vtapa", "PAGE": read("docs/CIRCUIT.md").encode()[:9_000]}
        ran = trial.run(["run", source, top, *data], ROOT)
        circuit = trial.put("c.v", trial.run(["build", source, top], ROOT).out)
        texts.update(REPORT=ran.out, CIRCUIT=Path(circuit).read_bytes(), DUMP=trial.run(["cosim", circuit, *data, "--cycles", "24", "--vcd"], ROOT).out)
        device = f"examples/devices/{'two_halves' if len(name) % 2 else 'u280'}.json"
        texts.update(DEV=read(device).encode(), PLAN=trial.run(["plan", source, top, device], ROOT).out)
        texts["WAVES"] = trial.tool("names.py", source, top, "--waves", trial.put("c.vcd", texts["DUMP"]))[1].encode()
        texts["TOLD"] = ran.err + TOLD
        texts["SPOKEN"] = spoken(texts["SRC"])
        yield texts
    trial.folder.cleanup()


def spoken(source):
    """Messages of an editor to the language server."""
    opened = {"textDocument": {"uri": "file:///t/F.cpp", "languageId": "cpp", "version": 1, "text": source.decode()}}
    said = [("initialize", {"capabilities": {}}, 1), ("initialized", {}, None), ("textDocument/didOpen", opened, None), ("textDocument/hover", {"textDocument": {"uri": "file:///t/F.cpp"}, "position": {"line": 6, "character": 12}}, 2), ("textDocument/completion", {"textDocument": {"uri": "file:///t/F.cpp"}, "position": {"line": 7, "character": 4}}, 3), ("shutdown", None, 4), ("exit", None, None)]
    bodies = [json.dumps({"jsonrpc": "2.0", "method": method, "params": given, **({} if number is None else {"id": number})}).encode() for method, given, number in said]
    return b"".join(b"Content-Length: %d\r\n\r\n%s" % (len(it), it) for it in bodies)


# ---- inputs


def hostile(some, sort, texts, others):
    """The bytes of a file of a sort that is not as it has to be."""
    text, way = texts[sort], some.random()
    other = some.choice(others)[sort if some.random() < 0.6 else some.choice(list(texts))]
    if way < 0.6:
        return mutants.changed(some, text, other)
    if way < 0.8:
        return mutants.tree(some, text, other) if sort in ("DATA", "DEV") else mutants.number(some, mutants.tokens(some, text, other), other)
    if way < 0.9:
        return mutants.noise(some)
    return some.choice([b"", b"\n", b"\xff\xfe\x00", other, text * 3, text.replace(b"\n", b"\r\n"), text.replace(b" ", b"\t"), b"[" * 200_000, b"{\"a\":" * 50_000, b"(" * 100_000, b"1" * 300_000, b"\x00" * 5000, text + b"\x80"])


def file_of(sort):
    return f"in.{ENDS.get(sort, sort)}"


def put(some, path, text):
    """A file, or now and then a folder, a loop of links, or nothing at all."""
    way = some.random() if some else 0
    if way < 0.95:
        Path(path).write_bytes(text)
    elif way < 0.97:
        os.mkdir(path)
    elif way < 0.98:
        os.symlink(path, path)


def made(some, call, texts, others, program):
    """The words of a call and its standard input; the files are put into the current folder."""
    words, given = [], "/dev/null"
    parts = call.split()
    sorts = sorted({it for it in parts if it in texts and it not in ("TOP", "NAME")})
    bad = set(some.sample(sorts, min(len(sorts), some.choice([1, 1, 1, 2])))) if sorts and some.random() < 0.9 else set()
    for sort in sorts:
        put(some if sort in bad else None, file_of(sort), hostile(some, sort, texts, others) if sort in bad else texts[sort])
    for part in parts:
        if part in ("TOP", "NAME"):
            words.append(texts[part].decode() if some.random() < 0.85 else some.choice(WORDS))
        else:
            words.append({"PROGRAM": program, "FOLDER": ".", "OUT": "out.txt"}.get(part, file_of(part) if part in texts else part))
    if "<" in words:
        at = words.index("<")
        given = words[at + 1]
        del words[at:at + 2]
    if some.random() < 0.12 or not bad:
        at = some.randint(0, len(words))
        words[at:at + some.randint(0, 1)] = [some.choice(WORDS)]
    return words, given


# ---- calls


def load(name):
    """The path and the module of a script; what it imports while it runs is imported once, before any call."""
    for it in pkgutil.walk_packages(vechaqir.__path__, "vechaqir."):
        if ".port." not in it.name:
            importlib.import_module(it.name)
    path = os.path.join(ROOT, "tools", f"{name}.py")
    spec = importlib.util.spec_from_file_location(f"tool_{name}", path)
    module = importlib.util.module_from_spec(spec)
    spec.loader.exec_module(module)
    script.words_of(module.main)
    return path, module


def called(path, module, words, given):
    """Runs a script in this process, which ends with its status."""
    resource.setrlimit(resource.RLIMIT_CPU, (SECONDS, SECONDS + 5))
    resource.setrlimit(resource.RLIMIT_AS, (MEMORY, MEMORY))
    for number, (name, mode) in enumerate(((given, os.O_RDONLY), (".out", os.O_WRONLY | os.O_CREAT), (".err", os.O_WRONLY | os.O_CREAT))):
        try:
            it = os.open(name, mode, 0o600)
        except OSError:
            it = os.open("/dev/null", mode)
        os.dup2(it, number)
    sys.stdin, sys.stdout, sys.stderr = open(0, encoding="utf-8"), open(1, "w", encoding="utf-8"), open(2, "w", encoding="utf-8", errors="backslashreplace")
    sys.argv = [path, *words]
    status = 1
    try:
        script.call(module.main)
    except SystemExit as end:
        status = end.code if isinstance(end.code, int) else 0 if end.code is None else 1
    except BaseException:
        traceback.print_exc()
    sys.stdout.flush()
    sys.stderr.flush()
    os._exit(status)


def answer(path, module, words, given):
    """The status of a call in a process of its own; None if it had not ended."""
    child = os.fork()
    if not child:
        called(path, module, words, given)
    signal.signal(signal.SIGALRM, lambda *_: os.kill(child, signal.SIGKILL))
    signal.alarm(WALL)
    _, status = os.waitpid(child, 0)
    return os.waitstatus_to_exitcode(status) if signal.alarm(0) else None


def wrong(status, words):
    """What is wrong with a call; nothing if it is in order."""
    err, out = (Path(name).read_text(encoding="utf-8", errors="replace") if os.path.exists(name) else "" for name in (".err", ".out"))
    said = err + out
    if status is None:
        return f"it had not ended after {WALL} seconds"
    if status < 0:
        return f"signal {-status}"
    if "Traceback (most recent" in said or "      = no explanation: " in said:
        return "\n".join(line for line in said.splitlines()[-30:] if "no explanation: " in line or not line.startswith("      |"))[-3000:]
    if OWN.search(err) or "in tools/lsp.py" in out:
        return said[-3000:]
    if "out of memory" in err and "/dev/full" not in words:
        return "out of memory, and no file is without an end"
    return "" if status <= 9 or status == 125 else f"status {status}"


def try_tool(name, asked, good):
    """The numbers of the inputs of a script that passed and failed."""
    os.chdir(ROOT)
    path, module = load(name)
    gc.freeze()
    failed = 0
    for number in range(asked.first, asked.first + asked.count):
        some = random.Random(f"{name} {asked.seed} {number}")
        folder = tempfile.mkdtemp(prefix="tapa-hostile-")
        os.chdir(folder)
        words, given = made(some, some.choice(CALLS[name]), some.choice(good), good, asked.program)
        why = wrong(answer(path, module, words, given), words)
        if why:
            failed += 1
            print(f"FAILED {name} {number}: {' '.join(words)[:300]!r} < {given} in {folder}\n   {why}", flush=True)
        else:
            shutil.rmtree(folder)
    print(f"{name}: {asked.count - failed} of {asked.count}", flush=True)
    return asked.count - failed, failed


@script.words(*script.PROGRAM)
@script.word("--only", metavar="NAME,..", default=",".join(CALLS), help="the scripts, without `.py`")
@script.word("--count", metavar="N", type=script.number(1), default=2000, help="how many inputs of each, 2000 if not given")
@script.word("--first", metavar="N", type=script.number(), default=0, help="the number of the first input")
@script.word("--seed", metavar="S", default="1", help="another seed makes other inputs")
def main(asked):
    sys.argv[0] = os.path.abspath(sys.argv[0])
    os.environ["TAPA"] = asked.program
    good = list(seeds(asked.program))
    found = [try_tool(name, asked, good) for name in asked.only.split(",")]
    passed, failed = (sum(it) for it in zip(*found))
    print(f"{passed} passed, {failed} failed")
    return 1 if failed else 0


if __name__ == "__main__":
    script.call(main)
