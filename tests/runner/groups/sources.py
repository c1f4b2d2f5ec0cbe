"""Sources that are refused, each next to the nearest source that is accepted, by the tables `cases/sources/*.rows`."""
import functools
import os
import re

from runner.trial import CASES, read

# Words that a refusal of the lexer or the parser begins with.
OF_TEXT = ("L1 ", "L2 ", "L3 ", "L4 ", "P1 ", "P2 ")


def context(name):
    """The source around a row: what stands before it and behind it."""
    return read(f"tests/cases/sources/contexts/{name}.cpp").split("@")


def parts(row):
    """A row's first words, and the texts that stand between ` and `."""
    found = re.fullmatch(r"([^`]*)((?: ?`[^`]*`)+)", row)
    if not found:
        raise ValueError(f"no row: {row}")
    return found[1].strip(), re.findall(r"`([^`]*)`", found[2])


def bytes_of(text):
    r"""The bytes of a row's text, in which `\xHH` stands for a byte."""
    parts_of = re.split(r"\\x([0-9a-f]{2})", text)
    return b"".join(bytes([int(part, 16)]) if at % 2 else part.encode() for at, part in enumerate(parts_of))


def table(path):
    """The kind of a table, which its first line names that is no comment, and its rows."""
    lines = [line for line in read(path).splitlines() if line and not line.startswith("# ")]
    return lines[0], lines[1:]


def try_rows(trial, folder, kinds):
    """Each row of a folder's tables, by the function of its kind."""
    for name in sorted(os.listdir(os.path.join(CASES, folder))):
        if name.endswith(".rows"):
            kind, rows = table(f"tests/cases/{folder}/{name}")
            trial.check(f"tests/cases/{folder}/{name} is a table with rows", kind in kinds and rows)
            for row in rows:
                kinds[kind](trial, row)


def try_pair(trial, row, name):
    """`CODE LINE:COL `refused` `accepted``, each of them in the context of that name."""
    before, after = context(name)
    wanted, (refused, accepted) = parts(row)
    trial.check_equal(refused, trial.told(before + refused + after), wanted)
    trial.check_equal(accepted, trial.told(before + accepted + after), "accepted")


def try_whole(trial, row):
    """`TOP TOLD `source``."""
    words, (source,) = parts(row)
    top, wanted = words.split(" ", 1)
    trial.check_equal(source, trial.told(source, top), wanted)


def try_bytes(trial, row):
    r"""`TOLD `source``, with `\xHH` for a byte."""
    wanted, (source,) = parts(row)
    trial.check_equal(source, trial.told(bytes_of(source)), wanted)


def repeated(before, part, count, after):
    """A source with a part that stands so many times between two others."""
    middle = "".join(part.replace("#", str(number)) for number in range(count))
    return (before + middle + after).replace("%", "\n")


def try_repeated(trial, row):
    """`TOLD `count` `before` `part` `accepted behind` `refused behind``."""
    wanted, (count, before, part, most, more) = parts(row)
    trial.check_equal(f"{row[:200]}: the limit", trial.told(repeated(before, part, int(count), most)), "accepted")
    trial.check_equal(f"{row[:200]}: past it", trial.told(repeated(before, part, int(count), more)), wanted)


def is_parsed(told):
    """Whether the lexer and the parser accept a source, of which the rules may say what they will."""
    return told == "accepted" or re.match(r"C\d+ ", told) is not None


def try_grammar(trial, row):
    """`CODE LINE:COL `source``, or `parsed `source`` where lexer and parser accept it."""
    wanted, (source,) = parts(row)
    told = trial.told(source)
    trial.check(source, is_parsed(told) if wanted == "parsed" else told == wanted, f"   {told}")


def try_grown(trial, row):
    """`TOLD `count` `before` `part` `behind``, with `parsed` as above."""
    wanted, (count, before, part, after) = parts(row)
    told = trial.told(repeated(before, part, int(count), after))
    trial.check(row[:200], is_parsed(told) if wanted == "parsed" else told == wanted, f"   {told}")


def try_prefixes(trial, row):
    """`ENDS.. `file``: the source breaks off before each byte; before the bytes of these numbers it is a file, and else none."""
    ends, (name,) = parts(row)
    source = read(f"tests/cases/sources/{name}")
    for end in range(len(source) + 1):
        told = trial.told(source[:end])
        if str(end) in ends.split():
            trial.check(f"{name} before byte {end}", is_parsed(told), f"   {told}")
        else:
            trial.check(f"{name} before byte {end}", told.startswith(OF_TEXT) and not told.startswith("P2"), f"   {told}")


KINDS = {f"in {name}": functools.partial(try_pair, name=name) for name in ("file", "leaf", "tasks")}
KINDS |= {"whole": try_whole, "bytes": try_bytes, "repeated": try_repeated, "grammar": try_grammar, "grown": try_grown, "prefixes": try_prefixes}


def try_all(trial):
    try_rows(trial, "sources", KINDS)
