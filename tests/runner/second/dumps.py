"""A second writer and a second reader of value change dumps, made from docs/COMMAND.md, "The dump", and IEEE 1364-2005, clause 18, alone. Places of faults are found as each line that
may come next goes along with the text."""
import collections
import os
import re

from runner.trial import read

# The words that are no names (IEEE 1364-2005, annex B).
KEYWORDS = set(read("tests/cases/files/keywords.words").split())


class NoDump(Exception):
    """How many bytes stand before the place."""


def identifier(k):
    return chr(33 + k % 94) + (identifier(k // 94) if k >= 94 else "")


def change(k, bits, value):
    return (str(value) if bits == 1 else f"b{value:b} ") + identifier(k) + "\n"


def head(top, nets):
    lines = [f"$var {'reg' if is_reg else 'wire'} {bits} {identifier(k)} {name} $end\n" for k, (name, bits, is_reg) in enumerate(nets)]
    return f"$timescale 1 ns $end\n$scope module {top} $end\n{''.join(lines)}$upscope $end\n$enddefinitions $end\n"


def written(top, nets, rows):
    """The dump of nets, each a name, bits and whether it is a reg, with these values in each cycle."""
    out = [head(top, nets)]
    for cycle, row in enumerate(rows):
        out.append(f"#{cycle}\n")
        out.extend(change(k, bits, value) for k, ((_, bits, _), value) in enumerate(zip(nets, row)) if cycle == 0 or rows[cycle - 1][k] != value)
    return "".join(out)


# ---- how far a text goes along with a line


def common(a, b):
    return len(os.path.commonprefix([a, b]))


def along(rest, parts):
    """How many bytes go along with parts, and whether all do; a part is a fixed text, or a function that says the same of a rest."""
    gone = 0
    for part in parts:
        n, is_whole = (common(rest[gone:], part), rest.startswith(part, gone)) if isinstance(part, str) else part(rest[gone:])
        gone += n
        if not is_whole:
            return gone, False
    return gone, True


def a_name(taken):
    """A name with the blank behind it."""

    def part(rest):
        name = re.match(r"[A-Za-z_][A-Za-z0-9_$]*", rest)
        if not name:
            return 0, False
        is_good = rest[name.end() : name.end() + 1] == " " and name[0] not in KEYWORDS and name[0] not in taken
        return name.end() + is_good, is_good

    return part


def a_width(rest):
    best, word = max((common(rest, f"{width} "), f"{width} ") for width in range(1, 129))
    return best, best == len(word)


def a_number(bits, last):
    """`b`, binary digits of a number other than the last one, and a blank."""

    def part(rest):
        digits = re.match(r"b(0|1[01]*)", rest)
        if not digits or (digits[1] == "0" and last == 0):
            return int(rest[:1] == "b"), False
        word = digits[1][:bits]
        if len(word) == bits and int(word, 2) == last:
            return bits, False
        n = 1 + len(word)
        is_good = rest[n : n + 1] == " " and int(word, 2) != last
        return n + is_good, is_good

    return part


def changes_of(k, bits, last):
    """The lines of a net that may come, as parts."""
    if bits == 1:
        return [[digit + identifier(k) + "\n"] for digit in "01" if last is None or int(digit) != last]
    return [[a_number(bits, last), identifier(k) + "\n"]]


class Reading:
    """A dump as far as it is read."""

    def __init__(self, text):
        self.text, self.at, self.nets, self.changes, self.cycle = text, 0, [], [], 0

    def step(self, lines):
        """Goes along with the first of these lines that the text has, each with what it is, and says what, and its text."""
        best, begin = 0, self.at
        rest = self.text[begin : begin + 4000]
        for what, parts in lines:
            gone, is_whole = along(rest, parts)
            if is_whole:
                self.at += gone
                return what, rest[:gone]
            best = max(best, gone)
        raise NoDump(begin + best)

    def read_head(self):
        self.step([(None, ["$timescale 1 ns $end\n$scope module ", a_name(()), "$end\n"])])
        taken = set()
        while True:
            lines = [(sort, [f"$var {sort} ", a_width, identifier(len(self.nets)) + " ", a_name(taken), "$end\n"]) for sort in ("wire", "reg")]
            sort, line = self.step([(None, ["$upscope $end\n$enddefinitions $end\n#0\n"]), *lines])
            if sort is None:
                return
            self.nets.append((line.split()[4], int(line.split()[2])))
            taken.add(line.split()[4])

    def next_lines(self, values, following):
        """The lines that may come: those of the nets from one on, and where all have values that of the next cycle."""
        is_first = following < len(self.nets) and values[following] is None
        if not is_first:
            yield None, [f"#{self.cycle + 1}\n"]
        for k in range(following, following + 1 if is_first else len(self.nets)):
            yield from ((k, parts) for parts in changes_of(k, self.nets[k][1], values[k]))

    def read(self):
        """The nets with their bits, the last cycle, and the changes, each a cycle, a net and a value."""
        self.read_head()
        values, following = [None] * len(self.nets), 0
        while self.at < len(self.text) or values[-1:] == [None]:
            k, line = self.step(self.next_lines(values, following))
            if k is None:
                self.cycle, following = self.cycle + 1, 0
                continue
            values[k], following = int(line[0]) if self.nets[k][1] == 1 else int(line.split()[0][1:], 2), k + 1
            self.changes.append((self.cycle, k, values[k]))
        return self.nets, self.cycle, self.changes


def rows_of(nets, last, changes):
    """The values of all nets in each cycle."""
    rows, values = [], [0] * len(nets)
    by_cycle = collections.defaultdict(dict)
    for cycle, k, value in changes:
        by_cycle[cycle][k] = value
    for cycle in range(last + 1):
        for k, value in by_cycle[cycle].items():
            values[k] = value
        rows.append(list(values))
    return rows
