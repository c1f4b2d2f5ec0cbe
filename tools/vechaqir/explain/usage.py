"""The words of a command: which of them is wrong, and what the command takes, from docs/COMMAND.md."""
import re
from typing import Dict, List, NamedTuple, Optional, Tuple

from . import pages
from .base import listed


# TAPA's own commands, each with the one that does its work here.
OF_TAPA = {"g++": "run", "compile": "build", "analyze": "build", "synth": "build", "pack": "build"}
ASKED = ("--help", "-h", "--version", "-v", "help", "version")
NOTE = re.compile(r" \(docs/[^)]*\)|`")
NO_FILE = "`--vcd` has no value: the dump goes to standard output, `> {}`"


class Word(NamedTuple):
    """A row of a command's table of words in docs/COMMAND.md: a word or an option with its value, what it is, its values, and what is taken without it."""

    word: str
    what: str
    values: str
    without: str


class Command(NamedTuple):
    """A command: its synopsis, the words that have to stand, those that may, and its options, each with whether it has a value."""

    name: str
    synopsis: str
    words: List[str]
    more: List[str]
    options: Dict[str, bool]


def commands() -> Dict[str, Command]:
    """The commands of docs/COMMAND.md by name."""
    found = {}
    for name, rest in re.findall(r"^    \./tapa (\w+) ?(.*)$", pages.page("COMMAND.md").split("\n## ", 1)[0], re.M):
        bracketed = re.findall(r"\[([^\]]+)\]", rest)
        options = {it.split()[0]: " " in it for it in bracketed if it.startswith("--")}
        found[name] = Command(name, f"{pages.command()} {name} {rest}".rstrip(), re.sub(r"\[[^\]]+\]", "", rest).split(), [it for it in bracketed if not it.startswith("--")], options)
    return found


def words_of(command: Command) -> List[Word]:
    """The words and options of a command, in the order of the page."""
    found = []
    for line in pages.section("COMMAND.md", command.name).splitlines():
        cells = [pages.plain(it.strip()) for it in line.strip("|").split("|")]
        if len(cells) == 4 and re.fullmatch(r"`[^`]+`", cells[0]):
            found.append(Word(cells[0].strip("`"), *cells[1:]))
    return found


def about(command: Command) -> List[str]:
    """A line for each word and option of a command: what it is, its values, and what is taken without it."""
    lines = []
    for it in words_of(command):
        tail = [part for part in (it.values, it.without and f"without it {it.without}") if part]
        lines.append((f"{it.word:<14} {it.what}" + (f": {'; '.join(tail)}" if tail else "")).replace("`", ""))
    return lines


def value(command: Command, name: str, text: str) -> Optional[str]:
    """What is wrong with the value of an option, or with a word: a number out of its range, or none of the words that there are."""
    values = next((it.values for it in words_of(command) if it.word.split()[0] == name), "")
    bounds = re.fullmatch(r"([0-9,]+) to ([0-9,]+)", values)
    if bounds:
        least, most = (int(it.replace(",", "")) for it in bounds.groups())
        is_right = re.fullmatch(r"[0-9]{1,19}", text) and least <= int(text) <= most
        return None if is_right else f"`{text}` is not a whole number from {least:,} to {most:,}"
    may = re.findall(r"`(\w+)`", values)
    return f"`{text}` is none of {listed(may)}" if may and text not in may else None


def is_option(word: str) -> bool:
    return len(word) > 1 and word[0] == "-"


def unknown_option(command: Command, word: str) -> str:
    name = word.split("=")[0]
    has = f"its options are {listed(command.options)}" if command.options else "it has no options"
    if name in ASKED:
        return f"`{name}` is not an option: what `{command.name}` takes is below"
    others = [it.name for it in commands().values() if name in it.options]
    if others:
        return f"`{name}` is an option of {listed(others)}, and not of `{command.name}`: {has}"
    more = "; what it prints goes to standard output: `> F`" if name in ("-o", "--output") else f"; `--explain` is the word before the command: `{pages.command()} --explain {command.name} ..`" if name == "--explain" else ""
    return f"`{command.name}` has no option `{name}`: {has}{more}"


def options(command: Command, words: List[str]) -> Tuple[Optional[str], List[str]]:
    """What is wrong with the options among the words behind a command's name, or else the other words."""
    plain: List[str] = []
    given: List[str] = []
    at = 0
    while at < len(words):
        word = words[at]
        at += 1
        if word == "--":
            return None, plain + words[at:]
        if not is_option(word):
            plain.append(word)
            continue
        name, sign, text = word.partition("=")
        if name not in command.options:
            return unknown_option(command, word), plain
        if name in given:
            return f"`{name}` is given twice", plain
        given.append(name)
        if not command.options[name]:
            if sign:
                return f"`{name}` has no value, and `{word}` gives it one", plain
            continue
        if not sign:
            if at == len(words) or is_option(words[at]):
                return f"behind `{name}` its value is missing" + (f": `{words[at]}` is an option" if at < len(words) else ""), plain
            text = words[at]
            at += 1
        wrong = value(command, name, text) if text else f"the value of `{name}` is empty"
        if wrong:
            return f"`{name} {text}`: {wrong}" if text else wrong, plain
    return None, plain


def wrong(words: List[str]) -> Optional[str]:
    """What is wrong with the words of a command, in a sentence that names the word; None where nothing is."""
    known = commands()
    if any("\udc80" <= it <= "\udcff" for word in words for it in word):
        return "a word is not UTF-8"
    if not words:
        return f"there is no word: the first one is a command, {listed(known, 'or')}"
    if words[0] in OF_TAPA:
        return f"`{words[0]}` is a command of TAPA's own `tapa`; here `{OF_TAPA[words[0]]}` does its work (docs/FROM_TAPA.md, \"Commands\")"
    if words[0] not in known:
        sort = "is not an option: the first word is a command" if is_option(words[0]) else "is not a command: the commands are"
        return f"`{words[0]}` {sort}, {listed(known, 'or')}" if is_option(words[0]) else f"`{words[0]}` {sort} {listed(known)}"
    command = known[words[0]]
    fault, plain = options(command, words[1:])
    return fault or positionals(command, plain, words)


def positionals(command: Command, plain: List[str], words: List[str]) -> Optional[str]:
    """What is wrong with the words of a command that are no options."""
    if len(plain) < len(command.words):
        missing = command.words[len(plain)]
        what = next((f", {NOTE.sub('', it.what)}," for it in words_of(command) if it.word == missing), "")
        return f"`{missing}`{what} is missing" + (f" after `{plain[-1]}`" if plain else f" after `{command.name}`")
    most = len(command.words) + len(command.more)
    if len(plain) > most:
        dumped = next((words[at + 1] for at in range(len(words) - 1) if words[at] == "--vcd" and words[at + 1] in plain), None)
        return f"`{plain[most]}` is one word too many: `{command.name}` takes {listed(command.words + command.more)}" + (f"; {NO_FILE.format(dumped)}" if dumped else "")
    fault = value(command, "N", plain[0]) if command.name == "gen" else None
    return f"N: {fault}" if fault else None


def explained(words: Optional[List[str]]) -> List[str]:
    """The lines below a usage message: the wrong word, what its command takes, or all commands with their words, the version and the page."""
    known = commands()
    fault = wrong(words) if words is not None else None
    lines = [f"      = {fault}"] if fault else []
    own = known.get(words[0]) or known.get(OF_TAPA.get(words[0], "")) if words else None
    lines += [f"      = {own.synopsis}"] + [f"      |   {it}" for it in about(own)] if own else [f"      = {it.synopsis}" for it in known.values()]
    if not words or words[0] in ASKED:
        told = {line.split("  ")[0]: line for it in known.values() for line in about(it)}
        lines += [f"      |   {line}" for line in told.values()]
        lines += [f"      = `{pages.command()} --explain ..` explains what it reports, as on a terminal; with `TAPA_EXPLAIN=1` each call does"]
    version = pages.version()
    lines += [f"      = {pages.command()} {version}"] * bool(version)
    return lines + ["      = docs/COMMAND.md"]
