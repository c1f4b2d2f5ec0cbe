"""What each script does around its one function: its words, `--help`, faults in a line, closed pipes, Ctrl-C, and the status. Scripts alone import it, first of all."""
import signal

# Until all is there Ctrl-C ends a script without a word; `run` says it by itself from then on.
if signal.getsignal(signal.SIGINT) == signal.default_int_handler:
    signal.signal(signal.SIGINT, signal.SIG_DFL)

import argparse  # noqa: E402
import errno  # noqa: E402
import io  # noqa: E402
import os  # noqa: E402
import re  # noqa: E402
import sys  # noqa: E402
import traceback  # noqa: E402
from typing import Any, Callable, Dict, List, NoReturn, Optional, Sequence, TextIO, Tuple, Union, cast  # noqa: E402

from .host.faults import Fault, Told  # noqa: E402

ROOT = os.path.dirname(os.path.dirname(os.path.dirname(os.path.realpath(__file__))))
# How the line begins that reports an exception that is neither of this module nor of the system.
UNEXPECTED = "this script has a fault"


# A word or an option, by the arguments of `add_argument`; what a script does with its words, and the words that each of them takes.
Word = Tuple[Tuple[str, ...], Dict[str, Any]]
Main = Callable[[argparse.Namespace], Optional[int]]
TAKEN: Dict[Main, List[Word]] = {}


class Usage(Exception):
    """The words are no command of the script; the sentence says why."""


def called() -> str:
    """The script's name in its messages: its path in the repository."""
    path = os.path.realpath(sys.argv[0])
    return os.path.relpath(path, ROOT) if path.startswith(f"{ROOT}{os.sep}") else os.path.basename(path)


def as_called(page: str) -> str:
    """A script's page with the names by which a person calls it, the other scripts and the program where it runs."""
    from .explain import pages
    page = re.sub(r"(?<![\w/.])tools/(\w+\.py)", lambda it: sys.argv[0] if it[0] == called() else pages.tool(it[1]), page)
    return re.sub(r"(?<![\w/])\./tapa(?= )|(?<=`)tapa(?= )", pages.command(), page) if pages.command() != "tapa" else page


def number(least: int = 0, most: int = 10**18) -> Callable[[str], int]:
    """Reads a whole number within bounds."""

    def read(word: str) -> int:
        if not word.isdecimal() or len(word) > 20 or not least <= int(word) <= most:
            raise argparse.ArgumentTypeError(f"{word} is no number from {least} to {most}")
        return int(word)

    return read


def executable(path: str) -> str:
    """The whole path of a program."""
    if not os.path.isfile(path) or not os.access(path, os.X_OK):
        raise argparse.ArgumentTypeError(f"{path} is no program")
    return os.path.abspath(path)


class Words(argparse.ArgumentParser):
    """The words of a script, whose page `--help` prints with what each word is. Wrong ones raise Usage."""

    def __init__(self, page: Optional[str], *taken: Word) -> None:
        super().__init__(called(), argparse.SUPPRESS, as_called((page or "").strip()), formatter_class=argparse.RawDescriptionHelpFormatter, allow_abbrev=False)
        for names, given in taken:
            self.add_argument(*names, **given)

    def error(self, message: str) -> NoReturn:
        raise Usage(message)

    def taken(self, given: Optional[List[str]]) -> argparse.Namespace:
        """What each word is. Usage where a second `--` is in the place of a word, of which argparse makes a list."""
        found = self.parse_args(given)
        for action in self._actions:
            if action.nargs is None and isinstance(getattr(found, action.dest, None), list):
                raise Usage(f"`--` is in the place of {action.metavar}")
        return found


# What several scripts take: a built `tapa`; a source and its top task; maybe its data; for which device a circuit is built, and how it is planned; how many cycles are simulated.
PROGRAM: List[Word] = [(("program",), {"metavar": "PROGRAM", "type": executable, "help": "the built `tapa`"})]
DESIGN: List[Word] = [(("source",), {"metavar": "SRC", "help": "the source"}), (("top",), {"metavar": "TOP", "help": "its top task"})]
DATA: List[Word] = [(("data",), {"metavar": "DATA", "nargs": "?", "help": "a data file (docs/DATA.md)"})]
DEVICE: List[Word] = [(("--device",), {"metavar": "DEV", "help": "a device file: the circuit is built for it"}),
                      (("--plan",), {"metavar": "MODE", "help": "how it is planned on the device, fit if not given"})]
CYCLES: List[Word] = [(("--cycles",), {"metavar": "N", "type": number(1), "default": 0, "help": "the most cycles that are simulated; as many as a run needs if not given"})]


def words(*taken: Word) -> Callable[[Main], Main]:
    """Has a script's function take these words; those of the decorator above come first."""
    def marked(main: Main) -> Main:
        TAKEN[main] = [*taken, *TAKEN.get(main, [])]
        return main
    return marked


def word(*names: str, **given: Any) -> Callable[[Main], Main]:
    """Has a script's function take one more word or option, as `add_argument` of argparse describes it."""
    return words((names, given))


def shown(messages: str, words: Sequence[str]) -> str:
    """Messages of the program; on a terminal each with its explanation, as `./tapa` shows it there."""
    if not messages or not sys.stderr.isatty():
        return messages
    from .explain.explainer import Command, Explainer
    explainer = Explainer(Command(list(words)))
    lines = [it for line in messages.splitlines() for it in (line, *explainer.safely(line))]
    return "".join(f"{it}\n" for it in lines + explainer.ended())


def told(why: BaseException) -> str:
    """A fault in one line: the words of an exception of this module, those of the system, or that the script did not expect it."""
    if isinstance(why, OSError):
        return f"{why.filename}: {why.strerror}" if why.filename is not None else str(why.strerror or why)
    if isinstance(why, MemoryError):
        return "out of memory"
    return str(why) if type(why).__module__.partition(".")[0] == __name__.partition(".")[0] else f"{UNEXPECTED}: {type(why).__name__} in {_place(why)}, please report it"


def _place(why: BaseException) -> str:
    """The file and line of the repository at which an exception came."""
    frames = [it for it in traceback.extract_tb(why.__traceback__) if it.filename.startswith(f"{ROOT}{os.sep}")]
    return f"{os.path.relpath(frames[-1].filename, ROOT)}:{frames[-1].lineno}" if frames else called()


def leave(status: Union[int, str, None]) -> NoReturn:
    """Ends with a status; a pipe that nobody reads any more is no fault of the script."""
    try:
        sys.stdout.flush()
    except OSError:
        os.dup2(os.open(os.devnull, os.O_WRONLY), 1)
        status = status or 1
    sys.exit(status)


class Closed(io.TextIOBase):
    """Standard output where it is closed: each write fails."""

    def write(self, text: str) -> int:
        raise OSError(errno.EBADF, "standard output is closed")

    @property
    def buffer(self) -> "Closed":
        return self


def put_streams() -> None:
    """Puts something in place of each standard stream that is closed, so that no file that is opened later takes its number."""
    for number, mode in ((0, os.O_RDONLY), (1, os.O_RDONLY), (2, os.O_WRONLY)):
        try:
            os.fstat(number)
        except OSError:
            os.open(os.devnull, mode)
    sys.stdin = sys.stdin or open(0, encoding="utf-8", closefd=False)
    sys.stdout = sys.stdout or cast(TextIO, Closed())
    if isinstance(sys.stdout, io.TextIOWrapper):
        # names of files that are not UTF-8 are written as they were given
        sys.stdout.reconfigure(errors="surrogateescape")
    sys.stderr = sys.stderr or open(2, "w", encoding="utf-8", errors="backslashreplace", closefd=False)


def ended(words: Words, main: Main, given: Optional[List[str]]) -> Union[int, str, None]:
    """The status of a script: its function's, 0 if that gives none, 1 for a fault and 2 for wrong words."""
    try:
        return main(words.taken(given))
    except SystemExit as end:
        return end.code
    except Usage as why:
        sys.stderr.write(f"{words.prog}: {why} (--help says more)\n")
        return 2
    except BrokenPipeError:
        return 1
    except KeyboardInterrupt:
        signal.signal(signal.SIGINT, signal.SIG_DFL)
        os.kill(os.getpid(), signal.SIGINT)
        return 1
    except Told as why:
        sys.stderr.write(shown(f"{why}{os.linesep}", why.words))
        return why.status
    except Fault as why:
        sys.stderr.write("".join(f"{words.prog}: {line}\n" for line in why.lines))
        return why.status
    except Exception as why:  # pylint: disable=broad-except
        sys.stderr.write(f"{words.prog}: {told(why)}\n")
        return 1


def run(words: Words, main: Main, given: Optional[List[str]] = None) -> NoReturn:
    """Runs a script by its words and ends: `--help` prints the page, a fault is told in a line, and nothing ends in a traceback."""
    put_streams()
    if signal.getsignal(signal.SIGINT) == signal.SIG_DFL:
        signal.signal(signal.SIGINT, signal.default_int_handler)
    leave(ended(words, main, given))


def words_of(main: Main) -> Words:
    """The words that a script's function takes, with the page of its module."""
    return Words(getattr(main, "__globals__")["__doc__"], *TAKEN.get(main, []))


def call(main: Main) -> NoReturn:
    """Runs a script by its function."""
    run(words_of(main), main)
