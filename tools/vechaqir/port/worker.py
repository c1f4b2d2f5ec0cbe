"""A port in a process of its own, so that no source takes it longer than it may, and none can end the tool without a sentence."""
import os
import pickle
import resource
import signal
import sys
import threading
from dataclasses import dataclass, field
from typing import BinaryIO, List, Optional

from .check.compare import Compared
from .faults import Mark, Note, Refused, Unusable

STACK = 512 << 20
DEPTH = 50_000
MEMORY = 6 << 30


@dataclass
class Answer:
    """What came of a port, and of its check where one was asked for."""

    text: str = ""
    marks: List[Mark] = field(default_factory=list)
    notes: List[Note] = field(default_factory=list)
    fault: Optional[str] = None
    checks: List[Compared] = field(default_factory=list)
    check_fault: Optional[str] = None


def ported(source: str, top: str, bits: Optional[int], check: List[str], tapa: str, out: BinaryIO) -> None:
    """Ports, writes the answer, and checks."""
    from . import porting
    answer = Answer()
    try:
        found = porting.ported(source, top, bits)
        answer = Answer(found.text, found.marks, found.notes)
    except Unusable as why:
        answer.fault = str(why) if source in str(why) or "apt-get" in str(why) else f"{source}: {why}"
    except Refused as why:
        answer.fault = f"{source}: {why.why}"
    except OSError as why:
        answer.fault = f"{why.filename}: {why.strerror}" if why.filename else str(why)
    except RecursionError:
        answer.fault = f"{source}: something in it nests too deep"
    except MemoryError:
        answer.fault = f"{source}: its port needs more memory than there is"
    except Exception as why:   # no source ends the tool with a trace
        at = why.__traceback__
        while at is not None and at.tb_next is not None:
            at = at.tb_next
        place = f"{os.path.basename(at.tb_frame.f_code.co_filename)}:{at.tb_lineno}" if at is not None else ""
        answer.fault = f"{source}: this source is read, but a pass cannot change it ({place}: {type(why).__name__}: {why})"
    send(answer, out)
    if check and answer.fault is None and not answer.marks:
        resource.setrlimit(resource.RLIMIT_CPU, (resource.RLIM_INFINITY, resource.RLIM_INFINITY))
        checked(answer, found, check, tapa, bits)
        send(answer, out)


def checked(answer: Answer, found: "object", check: List[str], tapa: str, bits: Optional[int]) -> None:
    """Compares on each data file; the original is compiled once."""
    from . import porting
    from .check import compare, native
    assert isinstance(found, porting.Ported)
    try:
        original = native.Native(found.program, bits)
        for data in check:
            answer.checks.append(compare.compared(found.program, found.text, data, tapa, original))
    except Unusable as why:
        answer.check_fault = str(why)
    except Refused as why:
        answer.check_fault = why.why


def send(answer: Answer, out: BinaryIO) -> None:
    made = pickle.dumps(answer)
    out.write(len(made).to_bytes(8, "little") + made)
    out.flush()


def received(pipe: int) -> Optional[Answer]:
    """The next answer, or None where the process ends without one."""
    taken = b""
    while True:
        part = os.read(pipe, 1 << 20)
        if not part:
            return None
        taken += part
        if len(taken) >= 8 and len(taken) >= 8 + int.from_bytes(taken[:8], "little"):
            made = pickle.loads(taken[8:])
            assert isinstance(made, Answer)
            return made


def child(source: str, top: str, bits: Optional[int], seconds: int, check: List[str], tapa: str, pipe: int) -> None:
    """The other process: a thread with a large stack, since expressions nest."""
    resource.setrlimit(resource.RLIMIT_CPU, (seconds, resource.RLIM_INFINITY))
    resource.setrlimit(resource.RLIMIT_AS, (MEMORY, MEMORY))
    resource.setrlimit(resource.RLIMIT_CORE, (0, 0))
    sys.setrecursionlimit(DEPTH)
    threading.stack_size(STACK)
    with os.fdopen(pipe, "wb") as out:
        thread = threading.Thread(target=ported, args=(source, top, bits, check, tapa, out))
        thread.start()
        thread.join()


def asked(source: str, top: str, bits: Optional[int], seconds: int, check: List[str], tapa: str) -> Answer:
    """The answer of a port."""
    sys.stdout.flush()
    sys.stderr.flush()
    reads, writes = os.pipe()
    process = os.fork()
    if process == 0:
        os.close(reads)
        status = 1
        try:
            os.dup2(os.open(os.devnull, os.O_WRONLY), 2)
            child(source, top, bits, seconds, check, tapa, writes)
            status = 0
        finally:
            os._exit(status)
    os.close(writes)
    try:
        answer = received(reads)
        if answer is not None and check and answer.fault is None and not answer.marks:
            answer = received(reads) or answer
    except BaseException:
        os.kill(process, signal.SIGKILL)
        raise
    finally:
        os.close(reads)
        _, status = os.waitpid(process, 0)
    if answer is None and os.WIFSIGNALED(status) and os.WTERMSIG(status) == signal.SIGXCPU:
        answer = Answer(fault=f"{source}: its port takes more than {seconds} seconds of processor time; --seconds N allows more")
    if answer is None:
        ended = f"signal {os.WTERMSIG(status)}" if os.WIFSIGNALED(status) else f"status {os.WEXITSTATUS(status)}"
        answer = Answer(fault=f"{source}: the process that reads it ended with {ended}: it nests too deep or is too large")
    return answer
