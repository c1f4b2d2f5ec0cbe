"""Value change dumps (IEEE 1364-2005, clause 18), read as a stream, so that a dump of 100 MB needs no more memory than its nets.

Both kinds of dump are read: that of `tapa cosim --vcd`, where a unit of time is a cycle, and that of `tools/icarus.py --dump`, where a cycle is ten units and holds the nets
inside of tasks and FIFOs too. A variable of the type `string`, as in a dump of `tools/names.py --waves`, has texts: its value is the number of a text in `Dump.texts`.
"""
from __future__ import annotations

import re
from typing import Dict, IO, Iterable, Iterator, List, NamedTuple, Optional, Tuple

# The bits of a net, a time, and a value without unknown bits.
WIDTH, TIME, BITS = re.compile(r"[0-9]{1,6}"), re.compile(r"[0-9]{1,18}"), re.compile(r"[01]+")
# The most cycles between two times of a dump, in each of which at least a clock changes or a time is written.
MOST_GAP = 10_000
# A value of a net: a number, or None where a bit of it is unknown (`x`) or undriven (`z`).
Value = Optional[int]


class NotADump(ValueError):
    """A file that is no value change dump. Its words say which file, and what is wrong."""


class Net(NamedTuple):
    """A net of a dump, whose width is 0 if it has texts. Its name is hierarchical, with a dot between a scope and what is in it: `t_VecAdd.s_a_q_wr`."""

    name: str
    width: int
    key: str


class Dump:
    """The nets of a dump by hierarchical name, and their values over time. The file is read anew for each call of `changes` and `cycles`."""

    def __init__(self, path: str) -> None:
        """Reads the head of a file alone. Raises OSError where it cannot be read, and NotADump where it is no dump."""
        self.path = path
        self.nets: Dict[str, Net] = {}
        self.texts: Dict[str, int] = {}
        self.top = ""
        with open(path, encoding="latin-1") as file:
            self._read_head(file)
        is_bench = any(name.startswith("bench.top.") for name in self.nets)
        # in a dump of tools/icarus.py the nets of a cycle have settled at its third unit, and registers take over at its fourth
        self.period, self.sample = (10, 3) if is_bench else (1, 0)
        if is_bench:
            self.top = "bench.top"

    def _read_head(self, file: IO[str]) -> None:
        scopes: List[str] = []
        for number, words in enumerate(self._commands(file), 1):
            if words[0] == "$scope" and len(words) > 2:
                scopes.append(words[2].lstrip("\\"))
                self.top = self.top or scopes[0]
            elif words[0] == "$upscope" and scopes:
                scopes.pop()
            elif words[0] == "$var" and len(words) > 4 and WIDTH.fullmatch(words[2]):
                name = ".".join([*scopes, words[4].lstrip("\\")])
                self.nets[name] = Net(name, 0 if words[1] == "string" else int(words[2]), words[3])
            elif words[0] == "$enddefinitions":
                return
            elif words[0] not in ("$timescale", "$date", "$version", "$comment"):
                raise NotADump(f"{self.path}: command {number}: `{' '.join(words)[:40]}` has no place in the head of a dump")
        raise NotADump(f"{self.path}: the head of the dump does not end: there is no $enddefinitions")

    def _commands(self, file: IO[str]) -> Iterator[List[str]]:
        """The words of each command of a dump's head, without its `$end`; a command may take several lines."""
        words: List[str] = []
        for line in file:
            for word in line.split():
                if word == "$end":
                    yield words or [""]
                    words = []
                else:
                    words.append(word)
            if words and not words[0].startswith("$"):
                raise NotADump(f"{self.path}: `{' '.join(words)[:40]}` is no command of a dump")

    def name(self, inside: str) -> str:
        """The hierarchical name of a net of the circuit's top module, given its name there: `s_a_q_wr`, or `t_A$0.state` for one further inside."""
        return f"{self.top}.{inside}"

    def has(self, inside: str) -> bool:
        """Whether the circuit's top module has this net."""
        return self.name(inside) in self.nets

    def changes(self, names: Optional[Iterable[str]] = None) -> Iterator[Tuple[int, str, Value]]:
        """Each change as time, hierarchical name and value, in the order of the file, of all nets or of those that are named. Raises KeyError for an unknown name."""
        wanted: Dict[str, List[str]] = {}
        for name in self.nets if names is None else names:
            wanted.setdefault(self.nets[name].key, []).append(name)
        for time, key, digits in self._raw_changes():
            if key in wanted:
                value = _number(digits)
                yield from ((time, name, value) for name in wanted[key])

    def cycles(self, names: Optional[Iterable[str]] = None) -> Iterator[Tuple[int, Dict[str, Value]]]:
        """Each cycle of the dump with the values that its nets have once they have settled. The dictionary is the same object in each step: copy what is to be kept.
        A net without a value so far is None. Raises KeyError for an unknown name."""
        chosen = list(self.nets if names is None else names)
        wanted: Dict[str, List[str]] = {}
        for name in chosen:
            wanted.setdefault(self.nets[name].key, []).append(name)
        values: Dict[str, Value] = {name: None for name in chosen}
        cycle, time = 0, 0
        for time, key, digits in self._raw_changes():
            if time > (cycle + MOST_GAP) * self.period:
                raise NotADump(f"{self.path}: no net changes for more than {MOST_GAP:,} cycles before the time {time}: this is no dump of a clocked circuit")
            while time > cycle * self.period + self.sample:
                yield cycle, values
                cycle += 1
            if key in wanted:
                value = _number(digits)
                for name in wanted[key]:
                    values[name] = value
        if time >= cycle * self.period:
            yield cycle, values

    def _raw_changes(self) -> Iterator[Tuple[int, str, str]]:
        """Time, key and digits of each change; for a time without changes the key is empty."""
        time, is_head = 0, True
        of_texts = {net.key for net in self.nets.values() if not net.width}
        with open(self.path, encoding="latin-1") as file:
            for line in file:
                if is_head:
                    is_head = "$enddefinitions" not in line
                    continue
                first = line[0]
                if first in "01xzXZbB" and of_texts and line[1:].rpartition(" ")[2].strip() in of_texts:
                    raise NotADump(f"{self.path}: `{line.strip()[:40]}` gives a number to a variable of texts")
                if first in "01xzXZ":
                    yield time, line[1:].strip(), first
                elif first in "bB":
                    digits, _, key = line[1:].partition(" ")
                    yield time, key.strip(), digits
                elif first == "#":
                    time = self._time(line)
                    yield time, "", "0"
                elif first in "sS":
                    words, _, key = line[1:].rstrip().rpartition(" ")
                    yield time, key, f"{self.texts.setdefault(words, len(self.texts)):b}"

    def _time(self, line: str) -> int:
        number = line[1:].strip()
        if not TIME.fullmatch(number):
            raise NotADump(f"{self.path}: `{line.strip()[:40]}` is no time")
        return int(number)


def _number(digits: str) -> Value:
    return int(digits, 2) if BITS.fullmatch(digits) else None


def read(path: str) -> Dump:
    """The dump of a file. Raises OSError and NotADump."""
    return Dump(path)
