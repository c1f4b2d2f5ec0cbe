"""Messages: every line that the program reported in the other groups is in the page Command, every message there was reported, and the texts in the code are there."""
import os
import re

from runner.trial import ROOT, read

# What stands for a word of the case's own in a message of docs/COMMAND.md.
OPEN = r"\b(FILE|LINE|COL|CODE|TEXT|KEY|NAME|LABEL|STREAM|N)\b"


def messages():
    """The messages of docs/COMMAND.md: those of its table of statuses, and the texts of the codes."""
    rows = re.findall(r"^\| (\d) \| `(tapa: .*?)` \|", read("docs/COMMAND.md"), re.M)
    texts = re.findall(r"`([LAPCVX]\d+ [^`]*)`", read("docs/COMMAND.md"))
    return [line.replace("\\|", "|") for _, line in rows], texts


def pattern(message):
    return re.compile("".join(".*" if at % 2 else re.escape(part) for at, part in enumerate(re.split(OPEN, message))), re.S)


def told_by_code():
    """The texts in the code of the crates that go to standard error: whole messages, and the texts of codes."""
    found = set()
    for crate in ("command_answers", "run_program", "tapa_cli"):
        folder = f"crates/{crate}/src"
        for name in sorted(os.listdir(os.path.join(ROOT, folder))):
            text = read(f"{folder}/{name}")
            found.update(re.findall(r'"((?:tapa: |[LAPCVX]\d+ | waits to | bad token )[^"]*?)(?:\\n)?"', text))
    return {re.sub(r"\{\w*\}", "*", text) for text in found}


def try_all(trial):
    """Each message that was told stands in docs/COMMAND.md, and each message there was told, or is in the code at least."""
    lines, texts = messages()
    patterns = [pattern(line) for line in lines]
    for line in sorted(trial.lines):
        trial.check(f"a document has the message {line}", any(it.fullmatch(line) for it in patterns))
    page = read("docs/COMMAND.md").replace("\\|", "|")
    for text in sorted(told_by_code()):
        parts = [re.escape(part) for part in text.strip("*").split("*")]
        trial.check(f"a document has the text {text}", re.search(r"\w+".join(parts), page))
    if not trial.is_whole:
        return
    refused = [line for line in trial.lines if re.match(r"tapa: .*:\d+:\d+: [LAPCVX]\d+ ", line)]
    for text in texts:
        told = pattern(text)
        trial.check(f"the text {text} is told", any(told.fullmatch(line.split(": ", 2)[2]) for line in refused))
    for line in lines:
        known = [told for told in trial.lines if pattern(line).fullmatch(told)]
        if line == "tapa: out of memory" and not known:
            trial.note("no case was told that memory is out")
        else:
            trial.check(f"the message {line} is told", known)
