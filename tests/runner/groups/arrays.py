"""Random sources with stream arrays and counted invokes: the report of a source is that of the text that a second implementation (`tools/vechaqir/language/arrays.py`) writes
out. A text of the most bytes, and of one more. `tests/stress/more.py PROGRAM arrays` tries more sources."""
import collections
import random
import re

from runner.trial import read
from vechaqir.language import arrays as WRITTEN, strict

SOURCES = 200
LEAVES = read("tests/cases/files/array_leaves.cpp")
GAPS = [" ", " ", " ", "  ", "\t", "\n", "\r\n", " // ( , [ 3 ]\n", " /* s_0, */ ", "\n#pragma HLS x\n", ""]
# Words that stand in for others: parts of forms, counts that are good and bad, names of arrays and of other things.
WORDS = ("tapa :: streams stream < > , ; ( ) [ ] { } . = + 0 1 2 3 512 513 2u 02 0x2 ONE TWO FAR NONE SUM join detach invoke task s t u s_0 x P F C S T int bool const constexpr void "
         "std uint8_t unsigned long \"s\" (2) s[0] t[1] ,s ,1").split()
COUNTS = "0 1 2 3 4 513 2u 02 0x1 ONE TWO FAR NONE SUM s t".split()
LEXEME = re.compile(r"\"[^\"\n]*\"|//[^\n]*\n|/\*.*?\*/|\w+|::|<<|>>|\s+|.", re.S)


class Source:
    """A source made at random: constants, and tasks with arrays whose elements are written and read once, unless a word is changed."""

    def __init__(self, seed, most_changes=2):
        self.some = random.Random(f"arrays {seed}")
        self.changes = self.some.choice([0, *range(most_changes + 1)])
        self.constants = {"ONE": 1, "TWO": 2, "NONE": 0}

    def count(self, number):
        """A word for a number, most often a literal."""
        names = [name for name, value in self.constants.items() if value == number]
        return self.some.choice([str(number), str(number), *names])

    def arrays(self, names):
        """Declarations of arrays, and the length of each."""
        lengths, texts = {}, []
        while names:
            front, names = names[: self.some.randint(1, 2)], names[2:]
            length = self.some.randint(1, 3)
            depth = self.some.choice(["", "", ", 2", ", TWO", ", 04"])
            told = ", ".join(name + self.some.choice(["", "", f'("{name}")']) for name in front)
            kind = self.some.choice(["int", "int32_t", "std::int32_t"])
            texts.append(f"tapa::streams<{kind}, {self.count(length)}{depth}> {told};")
            lengths.update({name: length for name in front})
        return lengths, texts

    def invokes(self, task, array, length, more=""):
        """Invokes of a task, one for each element: counted, or one by one, or with an index in each."""
        mode = self.some.choice(["join", "join", "detach"])
        if self.some.random() < 0.6:
            return [f".invoke<tapa::{mode}, {self.count(length)}>({task}, {array}{more})"]
        many = self.some.choice(["", "", f"<tapa::{mode}>", "<tapa::join, 1>"])
        return [f".invoke{many}({task}, {array}[{self.count(number)}]{more})" for number in range(length)]

    def chained(self, first, second, length):
        """Tasks between two arrays of one length."""
        scalar = self.some.choice(["2", "ONE", "int(3)", "(1 + 2)"])
        if self.some.random() < 0.6:
            return [f".invoke<tapa::join, {self.count(length)}>(F, {first}, {second}, {scalar})"]
        return [f".invoke(F, {first}[{self.count(k)}], {second}[{self.count(k)}], {scalar})" for k in range(length)]

    def task(self, name, names):
        lengths, texts = self.arrays(list(names))
        parts, waiting = [], dict(lengths)
        while waiting:
            array, length = waiting.popitem()
            others = [other for other, many in waiting.items() if many == length]
            parts += self.invokes("P", array, length)
            if others and self.some.random() < 0.6:
                waiting.pop(others[0])
                parts += self.chained(array, others[0], length)
                array = others[0]
            parts += self.invokes("C", array, length)
        self.some.shuffle(parts)
        if self.some.random() < 0.3:
            parts.append(self.some.choice([".invoke(S, 1)", ".invoke<tapa::detach, 2>(S, TWO)", ".invoke<tapa::join, 1>(S, (3))"]))
        return f"void {name}() {{ {' '.join(texts)} tapa::task(){''.join(parts)}; }}\n"

    def text(self):
        constants = "const int ONE = 1; constexpr unsigned long TWO = 2; const std::uint8_t NONE = 0; const int FAR = 513; const int SUM = 1 + 1; const int t = 1;\n"
        tasks = self.task("U", ["s", "u"]) if self.some.random() < 0.5 else ""
        top = self.task("T", ["s", "t", "u", "w"][: self.some.randint(1, 4)])
        inner = tasks and self.some.random() < 0.7
        whole = constants + LEAVES + tasks + (top.replace("tapa::task()", "tapa::task().invoke(U)", 1) if inner else top)
        return self.spread(self.changed(whole))

    def changed(self, text):
        """The text with some words changed, left out, doubled or put in."""
        words = LEXEME.findall(text)
        begin = sum(len(LEXEME.findall(part)) for part in text.partition("void S(int n) { }\n")[:2])
        counts = [at for at in range(begin, len(words)) if words[at] in COUNTS]
        of_invokes = [at for at in counts if "join" in words[at - 3:at] or "detach" in words[at - 3:at]]
        for _ in range(self.changes):
            if self.some.random() < 0.4:
                words[self.some.choice(counts)] = self.some.choice(COUNTS)
                continue
            if of_invokes and self.some.random() < 0.2:
                words[self.some.choice(of_invokes)] = self.some.choice(["1", "2", "3", "4", "TWO"])
                continue
            at = self.some.choice([self.some.randrange(begin, len(words)), self.some.randrange(len(words))])
            words[at] = self.some.choice([self.some.choice(WORDS), "", words[at] + " " + words[at], self.some.choice(WORDS) + " " + words[at]])
        return "".join(words)

    def spread(self, text):
        """The text with other blanks, comments and `#` lines between some of its lexemes."""
        if self.some.random() < 0.4:
            return text
        words = []
        for word in LEXEME.findall(text):
            is_blank = not word.strip()
            words.append(self.some.choice(GAPS[:-1]) if is_blank and self.some.random() < 0.3 else word)
            if not is_blank and word in ("(", ")", ",", "<", ";") and self.some.random() < 0.1:
                words.append(self.some.choice(GAPS))
        return "".join(words)


def said_of(trial, words, source):
    trial.put("r.cpp", source)
    said = trial.run(words)
    return said.status, said.out, said.err


def try_source(trial, name, source):
    """What is told of a source, beside what is told of its written-out text, or of its fault."""
    words = ["run", "r.cpp", "T", "--steps", "10000"]
    said = said_of(trial, words, source)
    try:
        written, _ = WRITTEN.Writer(source).written()
    except strict.NoLexemes:
        trial.check(name, said[0] == 1 and re.match(rb"tapa: r\.cpp:\d+:\d+: L\d ", said[2]), f"   {said}")
        return "lexemes"
    except WRITTEN.Refused as why:
        code, at = why.args
        line, col = WRITTEN.place_of(source, at)
        trial.check_equal(name, said, (1, b"", f"tapa: r.cpp:{line}:{col}: {code} {WRITTEN.TEXTS[code]}\n".encode()))
        return code
    trial.check_equal(f"{name}: its written-out text", said, said_of(trial, words, written))
    trial.check(f"{name}: as many lines", written.count(b"\n") == source.count(b"\n"))
    trial.check(f"{name}: a text without forms", WRITTEN.Writer(written).written()[0] == written)
    if said[0] == 0:
        trial.check_equal(f"{name}: its circuit", said_of(trial, ["build", "r.cpp", "T"], source), said_of(trial, ["build", "r.cpp", "T"], written))
    return said[0]


def try_random(trial, seeds):
    """Sources made at random; how often each answer came."""
    sources = {seed: Source(seed).text() for seed in seeds}
    return collections.Counter(try_source(trial, f"random source {seed}\n{text}", text.encode()) for seed, text in sources.items())


# ---- limits

INSTANCES, SOURCE_LIMIT = 512, 262_144


def long_source(size, more=0):
    """A source of so many bytes, whose written-out text has the most bytes that are read, and so many more. A constant's long name is an argument of 512 invokes;
    a comment inside of the form is left out, and one behind it is kept."""
    def text(name, inside, behind):
        form = f".invoke<tapa::join, {INSTANCES}>(S,/*{'-' * inside}*/{name})"
        return f"void S(int n) {{ }} const int {name} = 1; void T() {{ tapa::task(){form}; }} /*{'-' * behind}*/".encode()

    def lengths(letters, inside, behind):
        source = text("n" * letters, inside, behind)
        return len(source), len(WRITTEN.Writer(source).written()[0])

    # a letter makes the text 511 bytes longer beside the source, and a byte inside of the form makes it one shorter
    far = (WRITTEN.MOST + more - size) - (lengths(1, 0, 0)[1] - lengths(1, 0, 0)[0])
    letters = 1 + -(-far // (INSTANCES - 1))
    inside = (INSTANCES - 1) * (letters - 1) - far
    return text("n" * letters, inside, size - len(text("n" * letters, inside, 0)))


def try_limits(trial):
    """The most bytes of a source and of its text, and one more; 512 elements in one invoke, and one instance more."""
    for size, more, wanted in ((SOURCE_LIMIT, 0, "accepted"), (SOURCE_LIMIT, 1, "A4 1:1"), (1 << 16, 0, "accepted"), (1 << 16, 1, "A4 1:1")):
        source = long_source(size, more)
        trial.check_equal("a source's length", len(source), size)
        trial.check_equal(f"{size} bytes that are written out to {WRITTEN.MOST} and {more} more", trial.told(source), wanted)
    leaf = "void L(tapa::istream<int>& i, tapa::ostream<int>& o) { }\nvoid S() { }\n"
    body = "void T() {\n tapa::streams<int, 512> s;\n tapa::task().invoke<tapa::join, 512>(L, s, s)\n"
    trial.check_equal("512 instances", trial.told(leaf + body + ";\n}\n"), "accepted")
    trial.check_equal("513 instances", trial.told(leaf + body + ".invoke(S);\n}\n"), "C11 512 6:9")


def try_all(trial):
    try_limits(trial)
    found = try_random(trial, range(SOURCES))
    trial.check("random sources are accepted, and refused by each of the rules on arrays", all(found.get(it, 0) >= 5 for it in (0, 1, "A1", "A2", "A3")), f"   {found}")
