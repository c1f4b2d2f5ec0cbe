#!/usr/bin/env python3
"""Lets the system fail under one line of each command of a built `tapa`, and looks whether each answer is one that docs/COMMAND.md and docs/PROMISES.md allow.

    tests/stress/faults.py PROGRAM [--only W]

`calls`: each call of the system that opens, reads, writes or requests memory fails in turn (with `strace`). `allocations`: each allocation of every command is refused in turn, alone,
and one in five with all after it (with `cc`). `files`: in place of each file a folder, a device, a ring of links, a socket, a pipe that closes early or comes byte by byte, a file that grows,
shrinks or vanishes while it is read. `outputs`: what is closed, full, read-only, never read, cut after each byte. `limits`: memory, file size and open files, stepped. An answer is the
usual one, or a documented one after a prefix of the usual output. Each that is wrong is printed; the last line is `N passed, M failed`. The groups faults and endings test some of it.
"""
import collections
import contextlib
import os
import resource
import shutil
import signal
import socket
import sys
import threading
import time
from pathlib import Path

sys.dont_write_bytecode = True
sys.path.insert(0, os.path.dirname(os.path.dirname(os.path.abspath(__file__))))
from runner.ends import limit, read_front  # noqa: E402
from runner.groups.faults import put_files, put_large  # noqa: E402
from runner.made import refusals  # noqa: E402
from runner.made.hostile import Judge  # noqa: E402
from runner.trial import Trial, answer  # noqa: E402
from vechaqir import script  # noqa: E402

# One line of each command over the files of runner/faults.py, and large ones.
LINES = [["run", "r.cpp", "T", "d.json", "--workers=2"], ["build", "r.cpp", "T"], ["build", "r.cpp", "T", "--device", "v.json"], ["plan", "r.cpp", "T", "v.json"], ["plan", "r.cpp", "T", "v.json", "--plan", "exact"],
         ["plan", "r.cpp", "T", "v.json", "--plan", "split"], ["cosim", "x.v", "d.json"], ["gen", "1"]]
LARGE = [["run", "l.cpp", "T", "l.json"], ["build", "l.cpp", "T"], ["build", "l.cpp", "T", "--device", "l_device.json"], ["plan", "l.cpp", "T", "l_device.json"], ["cosim", "l.v", "l.json"]]
SECONDS = 30

# The calls that are made to fail, with what they then answer, and the status that is to follow. A break that cannot be moved is told by another one (brk(2) of Linux).
FULL = ["error=ENOSPC", "error=EIO", "error=EPIPE", "error=EINTR", "error=EAGAIN", "error=EFBIG"]
CALLS = [("openat", ["error=EACCES", "error=EMFILE", "error=ENOMEM", "error=ELOOP", "error=EINTR"], "5"), ("read", ["error=EIO", "error=EINTR", "error=EAGAIN", "error=ENOMEM", "error=EISDIR"], "5"),
         ("read", ["retval=0"], "13"), ("write", FULL, "6"), ("brk", ["retval=0"], "9"), ("mmap", ["error=ENOMEM"], "9"), ("mremap", ["error=ENOMEM"], "9"), ("close", ["error=EIO", "error=EINTR"], "0")]


class Faults:
    """A trial with the usual answers of its lines."""

    def __init__(self, program):
        self.trial, self.judge, self.usual = Trial(program), Judge(), {}
        self.counts = collections.Counter()
        os.chdir(self.trial.folder.name)

    def call(self, words, before=None, around=(), **streams):
        """Calls the program with the system's own way of signals, after the words of another program if such are given."""
        return answer([*around, self.trial.program, *words], timeout=SECONDS, preexec_fn=before, env={}, **streams)

    def whole(self, words):
        """The usual answer."""
        key = tuple(words)
        if key not in self.usual:
            self.usual[key] = self.call(words)
        return self.usual[key]

    def wrong(self, said, words, statuses, usual):
        """What is wrong with an answer that is to be the usual one, or one of these statuses behind a front of the usual output."""
        if (said.status, said.out, said.err) == (usual.status, usual.out, usual.err):
            return []
        if said.status not in range(10) or str(said.status) not in statuses:
            return [f"status {said.status}"]
        if said.status == usual.status:
            return ["another output"]
        said.is_stopped = False
        found = self.judge.error(said, [part for word in words for part in (word, word.split("=", 1)[-1])])
        is_front = usual.out.startswith(said.out) and (not said.out or said.status in (6, 9))
        return found + ([] if is_front else ["the output is no front of the usual one"])

    def check(self, name, said, words, statuses, usual=None):
        found = self.wrong(said, words, statuses, usual or self.whole(words))
        self.counts[words[0], said.status] += 1
        self.trial.check(f"{name}: {' '.join(words)}", not found, f"   {found} {said}")


def own_calls(faults, words, name):
    """Which calls of a name the program makes itself, behind those of the loader, counted from 1."""
    faults.call(words, around=["strace", "-o", "trace", "-e", f"trace={name},rt_sigaction"])
    lines = Path("trace").read_text(encoding="utf-8", errors="replace").splitlines()
    begun = next((at for at, line in enumerate(lines) if line.startswith("rt_sigaction")), 0)
    made = [at for at, line in enumerate(lines) if line.startswith(f"{name}(")]
    return [number + 1 for number, at in enumerate(made) if at > begun]


def try_calls(faults):
    """Each call of the system fails in turn; of calls that are many, some, and of large files with one answer each."""
    if not shutil.which("strace"):
        faults.trial.note("strace is not there, so no call of the system was made to fail")
        return
    for words in LINES + LARGE:
        for name, answers, statuses in CALLS:
            numbers = own_calls(faults, words, name)
            for number in numbers if len(numbers) < 20 else [*numbers[:6], *numbers[6:-4:max(1, len(numbers) // 8)], *numbers[-4:]]:
                for reply in answers if words in LINES and len(numbers) < 20 else answers[:1]:
                    said = faults.call(words, around=["strace", "-o", "trace", "-e", f"trace={name}", "-e", f"inject={name}:{reply}:when={number}"])
                    faults.check(f"call {number} of {name} answers {reply}", said, words, statuses)


def try_allocations(faults):
    """Each allocation is refused in turn, alone, and one in five with all after it."""
    faults.counts.update(refusals.try_allocations(faults.trial, 1, lambda line: print(line, flush=True)))


def fed(faults, words, name, pieces, pause=0.0):
    """The answer where one file is a pipe that brings these pieces and closes."""
    os.mkfifo("pipe")

    def feed():
        with contextlib.suppress(OSError), open("pipe", "wb", buffering=0) as file:
            for piece in pieces:
                file.write(piece)
                time.sleep(pause)

    feeder = threading.Thread(target=feed, daemon=True)
    feeder.start()
    said = faults.call(["pipe" if word == name else word for word in words])
    with contextlib.suppress(OSError):
        os.close(os.open("pipe", os.O_RDONLY | os.O_NONBLOCK))
    feeder.join(5)
    os.remove("pipe")
    return said


def changing(faults, words, name, change):
    """The answer while a file is changed again and again by another thread; its last text is the usual one."""
    text = Path(name).read_bytes()
    over = threading.Event()

    def go_on():
        while not over.is_set():
            change(name, text)

    changer = threading.Thread(target=go_on)
    changer.start()
    said = faults.call(words)
    over.set()
    changer.join()
    Path(name).write_bytes(text)
    return said


def shrink(name, text):
    with open(name, "wb") as file:
        file.write(text)
        file.flush()
        os.truncate(name, len(text) // 2)


def grow(name, text):
    with open(name, "ab") as file:
        file.write(b" " + text[:50_000])
    if os.path.getsize(name) > 50_000_000:
        os.truncate(name, len(text))


def vanish(name, text):
    Path(name).unlink(missing_ok=True)
    Path(name).write_bytes(text)


def put_strange():
    """Names in place of files: each with the statuses that it may have."""
    os.symlink("ring_b", "ring_a")
    os.symlink("ring_a", "ring_b")
    os.symlink("no_such_file", "dangling")
    os.makedirs("folder")
    with socket.socket(socket.AF_UNIX) as listener:
        listener.bind("socket")
    return {"ring_a": "5", "dangling": "5", "folder": "5", "socket": "5", "r.cpp/below": "5", "a" * 300: "5", "folder/" * 700: "5", "/proc/self/mem": "5", "/dev/null": "13", "/dev/zero": "7", "/dev/full": "7",
            "/dev/urandom": "7", "/proc/self/maps": "13", "/dev/tty": "5", "": "25"}


def try_files(faults):
    """Strange files in place of each, and files that change while they are read."""
    strange = put_strange()
    for words in LINES:
        for name in [word for word in words if "." in word]:
            for other, statuses in strange.items():
                put = [other if word == name else word for word in words]
                faults.check("a strange file", faults.call(put), put, statuses, faults.whole(words))
            text = Path(name).read_bytes()
            put = ["pipe" if word == name else word for word in words]
            for size in sorted({0, 1, len(text) // 4, len(text) // 2, len(text) * 3 // 4, len(text) - 2, len(text)}):
                faults.check(f"a pipe that closes after {size} bytes", fed(faults, words, name, [text[:size]]), put, "13", faults.whole(words))
            faults.check("a pipe in small pieces", fed(faults, words, name, [text[at:at + 9] for at in range(0, min(len(text), 1_000), 9)] + [text[1_000 // 9 * 9 + 9:]], 0.001), put, "", faults.whole(words))
    for words in LARGE:
        for name in [word for word in words if "." in word]:
            for what, change in (("shrinks", shrink), ("grows", grow), ("vanishes", vanish)):
                for _ in range(5):
                    faults.check(f"{name} {what} while it is read", changing(faults, words, name, change), words, "1357")


def opened(path, way):
    return os.open(path, way | os.O_CREAT, 0o600)


def stuck():
    """The writing side of a pipe that is full and never read, and does not wait."""
    ours, theirs = os.pipe()
    os.set_blocking(theirs, False)
    with contextlib.suppress(BlockingIOError):
        while True:
            os.write(theirs, b"x" * 4096)
    return ours, theirs


def try_ends(faults, words):
    """Outputs that are closed, full, read-only, or never read."""
    def closed(*numbers):
        return lambda: [os.close(number) for number in numbers]

    for numbers in ((1,), (0, 1), (1, 2), (0, 1, 2)):
        said = faults.call(words, before=closed(*numbers))
        faults.trial.check(f"{numbers} are closed: {words}", said.status == 6 and said.out == b"" and said.err in (b"", b"tapa: cannot write\n"), f"   {said}")
    for numbers in ((2,), (0,), (0, 2)):
        faults.check(f"{numbers} are closed", faults.call(words, before=closed(*numbers)), words, "0")
    ours, theirs = stuck()
    files = {"/dev/full": opened("/dev/full", os.O_WRONLY), "read-only": opened("ro", os.O_RDONLY), "a full pipe": theirs}
    for what, file in files.items():
        faults.check(f"the output is {what}", faults.call(words, stdout=file), words, "6")
        said = faults.call(words, stdout=file, stderr=file)
        faults.trial.check(f"both outputs are {what}: {words}", said.status == 6, f"   {said}")
        said = faults.call([*words[:2], "--none"], stderr=file)
        faults.trial.check(f"standard error is {what}: {words}", (said.status, said.out) == (6, b""), f"   {said}")
        os.close(file)
    os.close(ours)


def try_outputs(faults):
    for words in LINES:
        try_ends(faults, words)
        usual = faults.whole(words)
        for most in range(0, len(usual.out) + 1, 1 + len(usual.out) // 60):
            said = read_front(faults.call, words, most, 7)
            is_right = said.status in (0, 6) and said.err in (b"", b"tapa: cannot write\n") and usual.out.startswith(said.out) and bool(said.err) == (said.status == 6)
            faults.trial.check(f"the reader goes after {most} bytes: {words}", is_right, f"   {said}")
        said = read_front(faults.call, words, len(usual.out) + 1, 7)
        faults.trial.check(f"a slow reader in short pieces: {words}", (said.status, said.out) == (0, usual.out), f"   {said}")


def try_limits(faults):
    """File size, memory and open files, stepped."""
    for words in LINES:
        usual = faults.whole(words)
        for most in range(0, len(usual.out) + 1, 1 + len(usual.out) // 60):
            with open("cut", "wb") as file:
                said = faults.call(words, stdout=file, before=limit(resource.RLIMIT_FSIZE, most), restore_signals=False)
            said.out = Path("cut").read_bytes()
            faults.check(f"the output has room for {most} bytes", said, words, "6")
        with open("cut", "wb") as file:
            said = faults.call(words, stdout=file, before=limit(resource.RLIMIT_FSIZE, 1))
        said.out = b""
        faults.trial.check(f"a limit on file size ends by the system's signal: {words}", said.status == -signal.SIGXFSZ, f"   {said}")
        for most in range(4, 9):
            faults.check(f"{most} open files", faults.call(words, before=limit(resource.RLIMIT_NOFILE, most)), words, "5")
    for words in LINES + LARGE:
        least = next(step for step in range(1, 4096) if faults.call([], before=limit(resource.RLIMIT_AS, step << 16)).status == 2)
        for step in [*range(least, least + 64), *range(least + 64, least + 1024, 16)]:
            said = faults.call(words, before=limit(resource.RLIMIT_AS, step << 16))
            faults.check(f"{step * 64} KB of memory", said, words, "9")


GROUPS = [("calls", try_calls), ("allocations", try_allocations), ("files", try_files), ("outputs", try_outputs), ("limits", try_limits)]


@script.words(*script.PROGRAM)
@script.word("--only", metavar="W", default="", help="the groups whose name has W, all if not given")
def main(asked):
    faults = Faults(asked.program)
    put_files(faults.trial)
    put_large(faults.trial)
    for name, group in GROUPS:
        if asked.only in name:
            faults.trial.begin(name)
            begun = faults.trial.passed + faults.trial.failed
            group(faults)
            print(f"{name}: {faults.trial.passed + faults.trial.failed - begun} tried", flush=True)
    os.chdir("/")
    for verb, status in sorted(faults.counts, key=str):
        print(f"{verb} status {status}: {faults.counts[verb, status]}")
    return faults.trial.end()


if __name__ == "__main__":
    script.call(main)
