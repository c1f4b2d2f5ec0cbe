"""Commands on files, with everything that they write, by the cases `cases/runs/*.cases`."""
import os
import re
import shlex
from pathlib import Path

from runner.trial import CASES, read


# Behind the name of a file whose last line has no end.
BARE = " (no line end)"


class Command:
    """A command's words, the file that takes its standard output, if one does, the lines that it is to write to standard output and error, and its status."""

    def __init__(self, words):
        self.into = words.pop() if words[-2:-1] == [">"] else None
        self.words = words[:-1] if self.into else words
        self.out, self.err, self.status = [], [], 0


def add_line(commands, line):
    """Takes a line of a session."""
    if line.startswith("$ tapa"):
        commands.append(Command(shlex.split(line)[2:]))
    elif line.startswith("! "):
        commands[-1].err.append(line[2:])
    elif re.fullmatch(r"\[\d+\]", line):
        commands[-1].status = int(line[1:-1])
    elif line:
        commands[-1].out.append(line)


def cases(path):
    """Each case of a file: its name, its files, and its commands."""
    for text in re.split(r"^=== ", read(path), flags=re.M)[1:]:
        name, *lines = text.split("\n")
        files, commands, file, bare = {}, [], None, set()
        for line in lines:
            if line.startswith("---"):
                file = line[len("--- "):].removesuffix(BARE) or None
                if file:
                    files[file] = ""
                if line.endswith(BARE):
                    bare.add(file)
            elif file:
                files[file] += line + "\n"
            else:
                add_line(commands, line)
        yield name, {path: text[:-1] if path in bare else text for path, text in files.items()}, commands


def text_of(lines):
    return "".join(line + "\n" for line in lines).encode()


def try_command(trial, name, command, folder=None):
    said = trial.run(command.words, folder)
    if command.into:
        Path(folder or trial.folder.name, command.into).write_bytes(said.out)
        said.out = b""
    wanted = (command.status, text_of(command.out), text_of(command.err))
    told = f"   wanted:\n      status {command.status}\n{text_of(command.out + command.err).decode()}   got:\n      {said}"
    trial.check(f"{name}: tapa {' '.join(command.words)}", (said.status, said.out, said.err) == wanted, told)


def try_all(trial):
    for file in sorted(os.listdir(os.path.join(CASES, "runs"))):
        if file.endswith(".cases"):
            for name, files, commands in cases(f"tests/cases/runs/{file}"):
                for path, text in files.items():
                    trial.put(path, text)
                trial.check(f"{name} has a command", commands)
                for command in commands:
                    try_command(trial, name, command)
                for path in {*files, *(command.into for command in commands if command.into)}:
                    os.remove(os.path.join(trial.folder.name, path))
