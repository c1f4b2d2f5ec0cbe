"""What tools/port.py does and prints."""
import os
import subprocess
import sys
from typing import List, NamedTuple, Optional, Tuple

from ..host import program
from ..host.faults import Fault
from . import listing, worker
from .faults import Mark, Note
from .source import clang

SYSTEM = "/usr/bin/python3"
CHOSEN = "VECHAQIR_PORT_INTERPRETER"


class Options(NamedTuple):
    """What is asked for: a source, its top task, where the port is written, data files for the check, bits after the point, and seconds."""

    source: str
    top: str
    write: Optional[str]
    check: List[str]
    bits: Optional[int]
    seconds: int


def choose_interpreter(path: str) -> None:
    """Continues in the system's Python if that has libclang's binding, and this one has not."""
    if clang.is_there() or os.environ.get(CHOSEN) or not os.access(SYSTEM, os.X_OK) or os.path.realpath(SYSTEM) == os.path.realpath(sys.executable):
        return
    found = subprocess.run([SYSTEM, "-c", "import clang.cindex"], capture_output=True, check=False, stdin=subprocess.DEVNULL)
    if found.returncode == 0:
        os.execve(SYSTEM, [SYSTEM, path, *sys.argv[1:]], {**os.environ, CHOSEN: "1"})


def listed(marks: List[Mark], notes: List[Note]) -> List[str]:
    """What is done and what is left, in the order of the lines."""
    rows: List[Tuple[str, int, int, str]] = [(it.file, it.line, 0, f"{it.construct} becomes {it.becomes}") for it in notes]
    rows += [(it.file, it.line, 1, f"left: {it}") for it in marks]
    return [f"{file}:{line}: {text}" for file, line, _, text in sorted(rows)]


def constructs(path: str, seconds: int) -> int:
    """Lists the constructs of a source that the program refuses; the status says whether there are none."""
    found = listing.listed(path, seconds)
    for line in found:
        print(line)
    return 1 if found else 0


def asked(given: Options, called: str) -> int:
    """Ports a source, says what came of it, and gives the status."""
    tapa = program.find().path if given.check else ""
    answer = worker.asked(given.source, given.top, given.bits, given.seconds, given.check, tapa)
    if answer.fault is not None:
        raise Fault(answer.fault)
    for line in listed(answer.marks, [] if given.write or given.check else answer.notes):
        print(line)
    if given.write is not None:
        with open(given.write, "w", encoding="latin-1") as file:
            file.write(answer.text)
        print(f"{called}: {given.write} is written; {len(answer.marks)} left to change by hand, marked by `// port:`", file=sys.stderr)
    elif not given.check:
        print(f"{called}: {len(answer.notes)} ported, {len(answer.marks)} left to change by hand; --write OUT.cpp writes the source", file=sys.stderr)
    if answer.marks:
        if given.check:
            print(f"{called}: nothing is compared as long as something is left", file=sys.stderr)
        return 1
    return compared(given, answer) if given.check else 0


def compared(given: Options, answer: worker.Answer) -> int:
    """The answer of a check."""
    for data, found in zip(given.check, answer.checks):
        for line in found.other:
            print(f"{data}: {line}")
        print(f"{data}: {found.same} lines of both reports are the same, {len(found.other)} are not")
    if answer.check_fault is not None:
        raise Fault(answer.check_fault)
    return 1 if any(it.other for it in answer.checks) else 0
