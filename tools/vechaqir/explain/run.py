"""Runs `tapa` for a person: its messages with their explanations, on a terminal how long it has run, and its own end."""
import os
import resource
import select
import signal
import subprocess
import sys
import time
from typing import TYPE_CHECKING, List, NoReturn, Optional

if TYPE_CHECKING:
    from .explainer import Explainer

# Signals that go on to the program, which decides what they do.
PASSED_ON = (signal.SIGINT, signal.SIGTERM, signal.SIGHUP, signal.SIGQUIT)
SECONDS = 1.0
CLEAR = b"\r\x1b[K"


class Clock:
    """Tells once a second on standard error how long a program has run; what is written next takes its place."""

    def __init__(self) -> None:
        self.begun, self.is_shown = time.monotonic(), False
        self.is_seen = os.isatty(2)

    def tell(self) -> None:
        if not self.is_seen:
            return
        os.write(2, b"%d s\r" % (time.monotonic() - self.begun))
        self.is_shown = True

    def clear(self) -> None:
        if self.is_shown:
            os.write(2, CLEAR)
        self.is_shown = False


def end_like(status: int) -> NoReturn:
    """Ends with a status, or by the signal by which the program died."""
    if status < 0:
        resource.setrlimit(resource.RLIMIT_CORE, (0, resource.getrlimit(resource.RLIMIT_CORE)[1]))
        signal.signal(-status, signal.SIG_DFL)
        os.kill(os.getpid(), -status)
    sys.exit(status if status >= 0 else 128 - status)


class Explanations:
    """Explains messages; what that needs is only loaded where there is one, so that a run without messages begins at once."""

    def __init__(self, program: str, words: List[str]) -> None:
        self.program, self.words = program, words
        self.explainer: Optional["Explainer"] = None

    def of(self, line: str) -> List[str]:
        return self.made().safely(line)

    def ended(self, status: int) -> List[str]:
        """What is said after the end; of a run that is done too, which had no message."""
        return [] if self.explainer is None and (status != 0 or self.words[:1] != ["run"]) else self.made().ended(status)

    def made(self) -> "Explainer":
        if self.explainer is None:
            from . import explainer
            from ..host.program import Program
            self.explainer = explainer.Explainer(explainer.Command(self.words), Program(self.program, False))
        return self.explainer


def messages_of(running: "subprocess.Popen[bytes]", clock: Clock, explanations: Explanations) -> None:
    """Passes on each line of the program's standard error with its explanation, until it closes it."""
    assert running.stderr is not None
    number = running.stderr.fileno()
    held = b""
    while True:
        if not select.select([number], [], [], SECONDS)[0]:
            clock.tell()
            continue
        piece = os.read(number, 65_536)
        clock.clear()
        lines = (held + piece).split(b"\n")
        held = lines.pop()
        for line in lines + ([held] if held and not piece else []):
            os.write(2, line + b"\n")
            written(explanations.of(line.decode("utf-8", "surrogateescape")))
        if not piece:
            return


def written(lines: List[str]) -> None:
    for it in lines:
        os.write(2, (it + "\n").encode("utf-8", "replace"))


def run(program: str, words: List[str]) -> NoReturn:
    """Runs the program with these words; standard output is its own."""
    clock, explanations = Clock(), Explanations(program, words)
    try:
        running = subprocess.Popen([program, *words], stderr=subprocess.PIPE)
    except OSError as why:
        sys.stderr.write(f"tapa: {program}: {why.strerror}\n")
        sys.exit(125)
    for number in PASSED_ON:
        signal.signal(number, lambda told, _: running.send_signal(told))
    try:
        messages_of(running, clock, explanations)
        status = running.wait()
        clock.clear()
        if status >= 0:
            written(explanations.ended(status))
    except OSError:
        status = running.wait()
    end_like(status)
