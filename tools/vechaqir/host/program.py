"""The program `tapa`: where it is, whether it is the proved one, and how it is called."""
import os
import resource
import shutil
import signal
import subprocess
import sys
from dataclasses import dataclass
from pathlib import Path
from typing import List, NamedTuple, Optional, Sequence, Tuple

from .faults import Fault

ROOT = os.path.dirname(os.path.dirname(os.path.dirname(os.path.dirname(os.path.realpath(__file__)))))
USAGE = b"tapa: usage: tapa build|run|cosim|plan|gen|vcd\n"


class NoProgram(Fault):
    """There is no program to call, or it cannot be started; the text says why in a line."""


class TimedOut(Fault):
    """The program had not ended within the seconds that it was given."""


class Outcome(NamedTuple):
    """What a call answered: the exit status (below 0 the number of the signal that ended it), standard output and standard error."""

    status: int
    out: bytes
    err: bytes


@dataclass(frozen=True)
class Program:
    """A program `tapa`. `proved` says that the prover accepted the sources that it was built of; False says that this is not known."""

    path: str
    proved: bool

    def call(self, words: Sequence[str], input: bytes = b"", timeout: Optional[float] = None, cpu: Optional[int] = None) -> Outcome:
        """Runs the program with these words and this standard input, for at most `timeout` seconds of wall-clock time and `cpu` seconds of CPU time.

        Raises NoProgram if it cannot be started, and TimedOut.
        """
        try:
            with subprocess.Popen([self.path, *words], stdin=subprocess.PIPE, stdout=subprocess.PIPE, stderr=subprocess.PIPE) as ran:
                out, err = self._answer(ran, input, timeout, cpu)
        except subprocess.TimeoutExpired as late:
            raise TimedOut(f"{self.path} {' '.join(words)}: not ended after {late.timeout:g} seconds") from None
        except (OSError, ValueError) as error:
            raise NoProgram(f"{self.path}: {error}") from None
        if cpu is not None and ran.returncode in (-signal.SIGXCPU, -signal.SIGKILL):
            raise TimedOut(f"{self.path} {' '.join(words)}: not ended after {cpu} seconds of CPU time")
        return Outcome(ran.returncode, out, err)

    @staticmethod
    def _answer(ran: "subprocess.Popen[bytes]", input: bytes, timeout: Optional[float], cpu: Optional[int]) -> Tuple[bytes, bytes]:
        """Both outputs of a program that was started; it is killed if it takes too long, or if the caller is interrupted."""
        try:
            if cpu is not None:
                resource.prlimit(ran.pid, resource.RLIMIT_CPU, (cpu, cpu))
            return ran.communicate(input, timeout)
        except BaseException:
            ran.kill()
            raise


def find(build: bool = True) -> Program:
    """The program to call: the one that the variable TAPA names; in a release or an installation the one in the folder `program`; in a repository the proved
    one if it is built and no source is newer, and otherwise the unproved one, which is built at the first call unless `build` is False; and otherwise the
    command `tapa` of the PATH. Without TAPA it is the one that `./tapa` runs.

    Raises NoProgram.
    """
    named = os.environ.get("TAPA")
    if named:
        return given(named)
    released = os.path.join(ROOT, "program", "tapa")
    if os.access(released, os.X_OK):
        return given(released)
    if os.path.isdir(os.path.join(ROOT, "crates", "tapa_cli")):
        return _of_repository(build)
    return _of_path()


def given(path: str) -> Program:
    """The program at a path, with whether it is known to be proved. Raises NoProgram."""
    return Program(_startable(path), _is_proved(path))


def proved_path() -> str:
    """Where the proved program of this repository is, once it is built."""
    return os.path.join(ROOT, "crates", "tapa_cli", "out", "tapa_cli")


def is_newer_than_sources(path: str) -> bool:
    """Whether a file is there, and no source of this repository's program is newer."""
    try:
        made = os.stat(path).st_mtime_ns
        if os.stat(os.path.join(ROOT, "crates.txt")).st_mtime_ns > made:
            return False
        for folder, folders, names in os.walk(os.path.join(ROOT, "crates")):
            folders[:] = [name for name in folders if name != "out"]
            if any(os.stat(os.path.join(folder, name)).st_mtime_ns > made for name in names):
                return False
    except OSError:
        return False
    return True


def _is_proved(path: str) -> bool:
    """Whether a program is known to be proved: the one that the kit built of the sources as they are, or a release's that says so."""
    real = os.path.realpath(path)
    if real == os.path.realpath(proved_path()):
        return is_newer_than_sources(real)
    return os.path.basename(real) == "tapa" and os.path.exists(os.path.join(os.path.dirname(real), "PROVED"))


def _startable(path: str) -> str:
    found = shutil.which(path)
    if found is None:
        raise NoProgram(f"{path} is no program")
    return os.path.abspath(found)


def _of_repository(build: bool) -> Program:
    if os.access(proved_path(), os.X_OK) and is_newer_than_sources(proved_path()):
        return Program(proved_path(), True)
    stamp = os.path.join(ROOT, "out", "unproved", "stamp")
    if is_newer_than_sources(stamp):
        kept = Path(stamp).read_text(encoding="utf-8").strip()
        if os.access(kept, os.X_OK):
            return Program(kept, False)
    if not build:
        raise NoProgram(f"the program is not built; `{os.path.join(ROOT, 'tapa')}` builds it at its first call")
    ran = subprocess.run([sys.executable, os.path.join(ROOT, "tools", "unproved.py")], stdin=subprocess.DEVNULL, stdout=subprocess.PIPE, text=True, check=False)
    if ran.returncode != 0:
        raise NoProgram("the program is not built, and tools/unproved.py could not build it")
    return Program(ran.stdout.strip(), False)


def _of_path() -> Program:
    """The command `tapa` of the PATH where it is this program, and no other of the same name."""
    found = shutil.which("tapa")
    words: List[str] = []
    if found and Program(found, False).call(words).err.endswith(USAGE):
        return Program(found, False)
    raise NoProgram("no program `tapa` is found: set the variable TAPA to its path")
