"""Both reports side by side: each stream's tokens, each memory, and whether the run was done."""
import json
import os
import re
import subprocess
import tempfile
from typing import Dict, List, NamedTuple, Optional, Tuple

from ..faults import Unusable
from ..passes.layout import Layout, is_packed
from ..tree.kinds import Carrier, Record
from ..tree.program import Function, Program, Variable
from ..tree.statements import Chain, Declare
from ..tree.walking import found
from . import native

Key = Tuple[str, str, int, int]


class Place(NamedTuple):
    """The place, the name, the element and the word in the original, and which bits of the word are in fields; the others may have any value."""

    key: Key
    bits: int


class Compared(NamedTuple):
    """How many lines are the same, and those that are not, each with both sides."""

    same: int
    other: List[str]


def place_of(program: Program, path: str, it: Variable, at: Optional[int] = None) -> Place:
    """What a ported stream or memory is in the original, where it is the element `at`, or the one that it is made of."""
    back = {new: old for old, new in program.renamed.items()}
    old = back.get(it, it)
    variable, element, word = old.origin if old.origin is not None else (old, None, None)
    inner = getattr(variable.kind, "element", None)
    layout = Layout(inner) if isinstance(inner, Record) and is_packed(inner) else None
    return Place((path, variable.name, at if at is not None else -1 if element is None else element, word or 0), layout.field_bits(word or 0) if layout is not None and not layout.why else (1 << 64) - 1)


def labels(program: Program) -> Dict[str, Place]:
    """The labels of the ported streams and memories."""
    out = {f"memory {it.name}": place_of(program, "memory", it) for it in program.top.parameters}

    def one(function: Function, front: str, path: str) -> None:
        for statement in found(function.body, Declare):
            for local in statement.locals:
                it = local.variable
                if not isinstance(it.kind, Carrier):
                    continue
                if it.kind.sort == "streams":
                    for at in range(it.kind.length):
                        out[f"stream {front}{it.name}_{at}"] = place_of(program, path, it, at)
                else:
                    out[f"stream {front}{it.name}"] = place_of(program, path, it, -1)
        for chain in found(function.body, Chain):
            number = 0
            for invoke in chain.invokes:
                for _ in range(invoke.count):
                    one(invoke.function, f"{front}{invoke.function.name}${number}$", f"{path}{number}.")
                    number += 1
    one(program.top, "", "")
    return out


def ported_report(known: Dict[str, Place], program: Program, text: str, data: str, tapa: str) -> Tuple[Dict[Key, str], str]:
    """What `tapa run` reports of the ported source: by the places of the original, and whether it was done."""
    with tempfile.TemporaryDirectory(prefix="tapa-port-") as folder:
        path = os.path.join(folder, "ported.cpp")
        with open(path, "w", encoding="latin-1") as file:
            file.write(text)
        try:
            ran = subprocess.run([tapa, "run", path, program.top.name, data], capture_output=True, text=True, check=False, timeout=native.SECONDS * 4)
        except subprocess.TimeoutExpired:
            raise Unusable("`tapa run` of the ported source had not ended after four minutes") from None
        except OSError as why:
            raise Unusable(f"{tapa}: {why.strerror}") from None
        said = ran.stderr.replace(folder + "/", "").strip()
    if ran.returncode not in (0, 8):
        raise Unusable(f"`tapa` refuses the ported source: {said}")
    out: Dict[Key, str] = {}
    end = ""
    for line in ran.stdout.splitlines():
        front, _, rest = line.partition(":")
        words = front.split()
        if " ".join(words[:2]) in known:
            out[known[" ".join(words[:2])].key] = rest.strip()
        elif words[:1] and words[0] in ("done", "stopped"):
            end = words[0]
    return out, end


def of_fields(lists: Dict[Key, str], known: Dict[str, Place]) -> Dict[Key, str]:
    """Lists of tokens with the bits between the fields of structs as 0."""
    bits = {it.key: it.bits for it in known.values()}
    return {key: " ".join(str(int(each) & bits[key]) if each.isdecimal() else each for each in it.split()) if key in bits else it for key, it in lists.items()}


def original_report(lines: List[str]) -> Tuple[Dict[Key, str], str]:
    out: Dict[Key, str] = {}
    end = ""
    for line in lines:
        found_ = re.match(r"(stream|memory) (\S*?) ?(\S+) (-?\d+) (\d+):(.*)$", line)
        if found_ is None:
            end = line
            continue
        place = found_[2] if found_[1] == "stream" else "memory"
        out[(place, found_[3], int(found_[4]), int(found_[5]))] = found_[6].strip()
    return out, end


def said(key: Key) -> str:
    place, name, element, word = key
    return f"{'memory' if place == 'memory' else 'stream'} {'' if place in ('memory', '') else place}{name}{f'[{element}]' if element >= 0 else ''}{f', word {word}' if word else ''}"


def differing(one: str, other: str) -> str:
    """The first token in which two lists differ, with what is around it."""
    left, right = one.split(), other.split()
    at = next((index for index, (a, b) in enumerate(zip(left, right)) if a != b), min(len(left), len(right)))
    return f"from number {at} on the original has {' '.join(left[at:at + 4]) or 'no more'}, the ported source {' '.join(right[at:at + 4]) or 'no more'}"


def compared(program: Program, text: str, data: str, tapa: str, original: native.Native) -> Compared:
    """Runs both programs on one data file."""
    try:
        with open(data, encoding="utf-8") as file:
            given = json.load(file)
    except (OSError, ValueError) as why:
        raise Unusable(f"{data}: {getattr(why, 'strerror', None) or why}") from None
    known = labels(program)
    theirs, end = ported_report(known, program, text, data, tapa)
    mine, original_end = original_report(original.run(given))
    mine, theirs = of_fields(mine, known), of_fields(theirs, known)
    other = [f"{said(key)}: {differing(mine.get(key, ''), theirs.get(key, ''))}" for key in sorted(set(mine) | set(theirs)) if mine.get(key, "") != theirs.get(key, "")]
    if end != original_end:
        other.append(f"the original is {original_end}, the ported source {end}")
    return Compared(len(set(mine) | set(theirs)) + 1 - len(other), other)
