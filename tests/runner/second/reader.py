"""A second reader of the words of a command, written from docs/COMMAND.md alone: by what is wrong with them, and not word by word."""
import re

OPTIONS = {
    "run": {"--workers": True, "--steps": True},
    "build": {"--device": True, "--plan": True, "--no-balance": False},
    "plan": {"--plan": True},
    "cosim": {"--cycles": True, "--vcd": False},
    "vcd": {},
    "gen": {"--workers": True},
}
COUNTS = {"run": (2, 3), "build": (2, 2), "plan": (3, 3), "cosim": (1, 2), "vcd": (2, 2), "gen": (1, 1)}
RANGES = {"--workers": (1, 64), "--steps": (1, 10**12), "--cycles": (1, 10**12)}
DEFAULTS = {"--workers": 1, "--steps": 10**8, "--cycles": 10**7, "--plan": "fit"}


def number(word, least, most):
    """The number that a word writes, where it is one in its range."""
    return int(word) if re.fullmatch("[0-9]{1,19}", word, re.ASCII) and least <= int(word) <= most else None


def looks_like_option(word):
    return len(word.encode()) > 1 and word.startswith("-")


def taken_apart(command, words):
    """The options and the positionals, or nothing where the words break a rule."""
    end = words.index("--") if "--" in words else len(words)
    front, behind = words[:end], words[end + 1 :]
    options, positionals = [], []
    while front:
        word = front.pop(0)
        name, is_joined, value = word.partition("=")
        if not looks_like_option(word):
            positionals.append(word)
        elif name not in OPTIONS[command]:
            return None
        elif not OPTIONS[command][name]:
            if is_joined:
                return None
            options.append((name, ""))
        elif is_joined:
            if not value:
                return None
            options.append((name, value))
        else:
            if not front or looks_like_option(front[0]):
                return None
            options.append((name, front.pop(0)))
    return options, positionals + behind


def read(words):
    """The command, its positionals and its options with their values, or nothing where the words are no command."""
    if not words or words[0] not in OPTIONS:
        return None
    command = words[0]
    parts = taken_apart(command, list(words[1:]))
    if parts is None:
        return None
    options, positionals = parts
    least, most = COUNTS[command]
    if not least <= len(positionals) <= most or len({name for name, _ in options}) < len(options):
        return None
    said = {name: DEFAULTS.get(name) for name in OPTIONS[command]}
    for name, value in options:
        said[name] = number(value, *RANGES[name]) if name in RANGES else value
        if said[name] is None or (name == "--plan" and value not in ("exact", "fit", "split")):
            return None
    return None if command == "gen" and number(positionals[0], 0, 126) is None else (command, positionals, said)
