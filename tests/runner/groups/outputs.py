"""How standard output is written: in pieces of whole lines, line by line on a terminal, before the messages, by how many calls, and what is reported if it fails. The output has
room for some bytes only, its reader goes away early or late, or both outputs are full."""
import contextlib
import os
import pty
import socket
import subprocess
import threading

from runner import ends
from runner.ends import is_told, is_unwritten
from runner.groups.endings import STOPS
from runner.groups.faults import REFUSED, WHOLE, put_files, put_large

TOGETHER = 65_536

STOPPED = b"stream q: 1\nstopped 1\n"
MESSAGES = b"tapa: P$0 waits to write q\ntapa: C$1 bad token on q\n"

# Commands whose outputs are long.
LONG = [["run", "l.cpp", "T"], ["build", "l.cpp", "T"], ["cosim", "l.v"]]


def in_pieces(whole):
    """The lines of a text, as many together as have room in a piece."""
    pieces = [b""]
    for line in whole.splitlines(keepends=True):
        if len(pieces[-1]) + len(line) > TOGETHER:
            pieces.append(b"")
        pieces[-1] += line
    return pieces


def pieces_of(trial, words, *streams):
    """What a command writes to its output or its standard error, or to both, write by write: a socket that keeps messages apart stands for them."""
    ours, theirs = socket.socketpair(socket.AF_UNIX, socket.SOCK_SEQPACKET)
    found = []

    def listen():
        while piece := ours.recv(1 << 20):
            found.append(piece)

    listener = threading.Thread(target=listen)
    listener.start()
    trial.run(words, **{stream: theirs for stream in streams})
    theirs.close()
    listener.join()
    ours.close()
    return found


def try_pieces(trial):
    """Into a file or a pipe a report, a circuit or a plan goes in pieces of whole lines. Each message is a write of its own, behind them."""
    for words in [["run", "r.cpp", "T", "d.json"], *WHOLE, *LONG]:
        found = pieces_of(trial, words, "stdout")
        trial.check(f"{words}: in pieces", found == in_pieces(trial.run(words).out), f"   {[len(piece) for piece in found]}")
    for words in REFUSED.values():
        found = pieces_of(trial, words, "stderr")
        trial.check(f"{words}: a message a write", found == trial.run(words).err.splitlines(keepends=True), f"   {found[:5]}")
    found = pieces_of(trial, ["run", "s.cpp", "T"], "stdout", "stderr")
    trial.check("a run that stops: its report, and behind it its messages", found == [STOPPED, *MESSAGES.splitlines(keepends=True)], f"   {found}")
    found = pieces_of(trial, ["cosim", "x.v", "d.json", "--cycles", "2"], "stdout", "stderr")
    trial.check("a simulation past its cycles: its report, and behind it its message", found[1:] == [b"tapa: not done after 2 cycles\n"], f"   {found}")


def on_terminal(trial, words):
    """What a terminal shows of a command, and how many writes were made, where the system tells it."""
    ours, theirs = pty.openpty()
    shown = []

    def listen():
        with contextlib.suppress(OSError):
            while piece := os.read(ours, 4096):
                shown.append(piece)

    program = subprocess.Popen([trial.program, *words], cwd=trial.folder.name, stdin=subprocess.DEVNULL, stdout=theirs, stderr=theirs)
    os.close(theirs)
    listener = threading.Thread(target=listen)
    listener.start()
    calls = counted(program)
    listener.join()
    os.close(ours)
    return b"".join(shown).replace(b"\r\n", b"\n"), calls


def counted(program):
    """How many writes a program had made when it ended, where the system tells it (proc(5) of Linux)."""
    os.waitid(os.P_PID, program.pid, os.WEXITED | os.WNOWAIT)
    try:
        with open(f"/proc/{program.pid}/io", encoding="ascii") as file:
            calls = next(int(line.split()[1]) for line in file if line.startswith("syscw"))
    except OSError:
        calls = None
    program.wait()
    return calls


def try_calls(trial):
    """How many writes a circuit takes: one into a file, and one a line on a terminal, where each line is to be seen at once."""
    for words in (["build", "r.cpp", "T"], ["run", "r.cpp", "T", "d.json"]):
        whole = trial.run(words).out
        with open(os.path.join(trial.folder.name, "whole"), "wb") as file:
            calls = counted(subprocess.Popen([trial.program, *words], cwd=trial.folder.name, stdin=subprocess.DEVNULL, stdout=file))
        shown, lines = on_terminal(trial, words)
        trial.check(f"a terminal shows {words}", shown == whole, f"   {shown[-300:]}")
        if calls is None or lines is None:
            trial.note("the system does not tell how many writes a program made")
        else:
            trial.check_equal(f"the writes of {words}, to a file and to a terminal", (calls, lines), (1, len(whole.splitlines())))
    shown, _ = on_terminal(trial, ["run", "s.cpp", "T"])
    trial.check_equal("a run that stops, on a terminal", shown, STOPPED + MESSAGES)


def try_cut(trial):
    """The output has room for so many bytes, at the ends of pieces and elsewhere: just these are written, and status 6 is told."""
    for words in LONG:
        whole = trial.run(words).out
        borders = {sum(map(len, in_pieces(whole)[:count])) for count in (1, 2, 3)}
        for most in sorted({0, 1, 1_000, len(whole) - 1, len(whole)} | {border + step for border in borders for step in (-1, 0, 1) if border + step <= len(whole)}):
            said = ends.cut(trial, words, most)
            is_right = is_unwritten(said, whole[:most]) if most < len(whole) else is_told(said, 0, "", whole)
            trial.check(f"the output has room for {most} bytes: {words}", is_right, f"   {said}")


def try_late(trial):
    """A reader goes away after 1,024 bytes; a pipe is full and does not wait. Where standard error fails too, the status tells it alone."""
    for words in LONG:
        whole = trial.run(words).out
        trial.check_that(f"a reader goes away: {words}", ends.read_front(trial.run, words, 1_024), lambda said: is_unwritten(said, whole[:1_024]))
        trial.check_that(f"nobody reads either: {words}", ends.unread(trial, words, "stdout", "stderr"), lambda said: said.status == 6)
    words = ["build", "l.cpp", "T"]
    reader, writer = os.pipe()
    os.set_blocking(writer, False)
    said = trial.run(words, stdout=writer)
    os.close(writer)
    with open(reader, "rb") as file:
        said.out = file.read()
    trial.check("a full pipe that does not wait", said.out != b"" and is_unwritten(said, trial.run(words).out[:len(said.out)]), f"   {said}")


def try_untold(trial):
    """Where the report of a run that stops cannot be written, that is told, and none of its messages."""
    if not ends.has_full(trial):
        return
    for words in (["run", "s.cpp", "T"], ["cosim", "x.v", "d.json", "--cycles", "2"], *LONG):
        trial.check_that(f"the output is full: {words}", ends.full(trial, words, "stdout"), is_unwritten)
        trial.check_that(f"both are full: {words}", ends.full(trial, words, "stdout", "stderr"), lambda said: said.status == 6)


def try_all(trial):
    put_files(trial)
    put_large(trial)
    trial.put("s.cpp", STOPS)
    try_pieces(trial)
    try_calls(trial)
    try_cut(trial)
    try_late(trial)
    try_untold(trial)
