"""Calls of a program under limits on time and memory, and what is wrong with their answers by the tables of docs/COMMAND.md and docs/PROMISES.md."""
import os
import re
import resource
import signal
from pathlib import Path

from runner.groups.messages import messages
from runner.trial import read

# What stands for the case's own words in a message; `told` has the file that it names.
PARTS = {"FILE": "(?P<told>.*?)", "LINE": r"[1-9]\d*", "COL": r"[1-9]\d*", "KEY": ".*", "NAME": ".*", "LABEL": r"[\w$]+", "STREAM": r"[\w$]+", "N": r"\d+"}

# What each command may answer.
MAY = {"run": "012356789", "build": "012345679", "plan": "012345679", "cosim": "01235679", "cosim --vcd": "01235679", "vcd": "0125679", "gen": "0269"}

# How the output of a whole answer ends.
ENDS = {("cosim --vcd", 0): rb"#\d+\n|[01][!-~]+\n|b(?:0|1[01]*) [!-~]+\n", ("cosim --vcd", 7): rb"#\d+\n|[01][!-~]+\n|b(?:0|1[01]*) [!-~]+\n",
        ("vcd", 0): rb"\d+ \d+\n", ("gen", 0): rb"cycles [1-9]\d*\n",
        ("run", 0): rb"done \d+\n", ("run", 8): rb"stopped \d+\n", ("cosim", 0): rb"done [1-9]\d*\n", ("cosim", 7): rb"running [1-9]\d*\n", ("build", 0): rb"endmodule\n", ("plan", 0): rb"dual \d+\n"}


def patterns():
    """The messages of docs/COMMAND.md as patterns, by status."""
    texts = "|".join(re.sub(r"\\?\bN\b", r"[1-9]\\d*", re.escape(text)) for text in messages()[1])
    found = {}
    for status, line in re.findall(r"^\| (\d) \| `(tapa: .*?)` \|", read("docs/COMMAND.md"), re.M):
        parts = re.split(r"\b(CODE TEXT|FILE|LINE|COL|KEY|NAME|LABEL|STREAM|N)\b", line.replace("\\|", "|"))
        whole = "".join((f"(?:{texts})" if part == "CODE TEXT" else PARTS[part]) if at % 2 else re.escape(part) for at, part in enumerate(parts))
        found.setdefault(int(status), []).append(re.compile(whole, re.S))
    return found


class Answer:
    """What a call answered: its status (below 0: the signal that ended it), both outputs, whether it was stopped, its processor seconds and its memory in KB."""

    def __init__(self, status, outputs, is_stopped, used):
        self.status, (self.out, self.err), self.is_stopped = status, outputs, is_stopped
        self.seconds, self.memory = used.ru_utime + used.ru_stime, used.ru_maxrss


class Caller:
    """Calls a program in a folder, with a limit on the seconds of a call; this process and its calls have at most so many bytes of memory."""

    def __init__(self, program, folder, seconds, memory):
        self.program, self.folder, self.seconds = os.path.abspath(program), folder, seconds
        self.child, self.is_stopped, self.texts = 0, False, {}
        os.chdir(folder)
        resource.setrlimit(resource.RLIMIT_AS, (memory, memory))
        resource.setrlimit(resource.RLIMIT_CORE, (0, 0))
        signal.signal(signal.SIGALRM, self.stop)

    def stop(self, *_):
        if self.child:
            self.is_stopped = True
            os.kill(self.child, signal.SIGKILL)

    def put(self, name, text):
        if self.texts.get(name) != text:
            self.texts[name] = text
            Path(name).write_bytes(text)

    def call(self, words):
        """The answer to these words; the outputs go to files of the folder."""
        create = os.O_WRONLY | os.O_CREAT | os.O_TRUNC
        given = [(os.POSIX_SPAWN_OPEN, 0, "/dev/null", os.O_RDONLY, 0), (os.POSIX_SPAWN_OPEN, 1, ".out", create, 0o600), (os.POSIX_SPAWN_OPEN, 2, ".err", create, 0o600)]
        self.is_stopped = False
        self.child = os.posix_spawn(self.program, [b"tapa", *words], {}, file_actions=given, setsigdef=[signal.SIGPIPE, signal.SIGXFSZ])
        signal.setitimer(signal.ITIMER_REAL, self.seconds)
        _, status, used = os.wait4(self.child, 0)
        self.child = 0
        signal.setitimer(signal.ITIMER_REAL, 0)
        outputs = [Path(name).read_bytes() for name in (".out", ".err")]
        return Answer(os.waitstatus_to_exitcode(status), outputs, self.is_stopped, used)


class Judge:
    """What is wrong with an answer."""

    def __init__(self):
        self.patterns = patterns()

    def is_told(self, status, text, names):
        """Whether a message is one of the status, and the file that it names one of these."""
        for it in self.patterns.get(status, []):
            found = it.fullmatch(text)
            if found and found.groupdict().get("told", "{}") in {"{}", *names}:
                return True
        return False

    def error(self, answer, names):
        """What is wrong with standard error."""
        err = answer.err.decode("utf-8", "surrogateescape")
        if answer.status == 0:
            return ["standard error is not empty at status 0"] if err else []
        if not err.endswith("\n"):
            return ["the message has no line's end"]
        lines = err[:-1].split("\n") if answer.status == 8 else [err[:-1]]
        return [f"no message of status {answer.status}: {line[:300]}" for line in lines if not self.is_told(answer.status, line, names)]

    def output(self, answer, verb):
        """What is wrong with standard output."""
        out, status = answer.out, answer.status
        is_undone = verb.startswith("cosim") and status == 7 and answer.err.startswith(b"tapa: not done after ")
        if status in (0, 8) or is_undone:
            end = ENDS.get((verb, status))
            is_right = end and re.fullmatch(end, out[out.rfind(b"\n", 0, -1) + 1:])
            return [] if is_right and b"\n\n" not in out else [f"the output has not the end of status {status}: {out[-80:]}"]
        return [f"output at status {status}: {out[:80]}"] if out and status not in (6, 9) else []

    def wrong(self, answer, verb, names):
        """All that is wrong with an answer to a command: what docs/COMMAND.md and docs/PROMISES.md do not allow."""
        if answer.is_stopped:
            return ["it had not ended"]
        if answer.status < 0:
            return [f"signal {-answer.status}"]
        if str(answer.status) not in MAY.get(verb, "2"):
            return [f"status {answer.status} is none of {verb}: {answer.err[:200]}"]
        return self.error(answer, names) + self.output(answer, verb)
