"""Leaf tasks made at random, with every construct of the language: what their machines and their values are is tried on them."""
import random

from runner.trial import read

HEAD = read("tests/cases/files/leaf_head.cpp")
TOP = read("tests/cases/files/leaf_top.cpp")
DATA = {"scalars": {"n": -5, "b": 1}, "memories": {"m": [3, -9, 2**31 - 1, 4], "w": [2**63, 1, 7]}, "waits": {"m": [0, 1, 1, 0, 0, 1] * 20, "w": [1, 0, 0] * 30}}
KINDS = ["bool", "int8_t", "uint8_t", "short", "unsigned short", "int", "unsigned", "long", "uint64_t", "std::int64_t", "size_t"]
SIGNS = ["+", "-", "*", "&", "|", "^", "<<", ">>", "==", "!=", "<", "<=", ">", ">=", "&&", "||", "/", "%"]


class Leaf:
    """The text of a random leaf task. `names` are the variables in scope, each with whether it may be set, `arrays` the arrays with their lengths."""

    def __init__(self, seed):
        self.some = random.Random(f"leaves {seed}")
        self.names, self.arrays, self.count, self.loops = [("n", True), ("b", True)], [], 0, 0

    def source(self):
        body = "\n".join(self.statement(2) for _ in range(self.some.randint(3, 9)))
        head = "void L(tapa::istream<int>& q, tapa::mmap<int> m, int n, tapa::ostream<int16_t>& r, tapa::mmap<uint64_t> w, bool b)"
        return f"const int K = 3; constexpr uint8_t N = K + 2;\n{HEAD}{head} {{\n{body}\n}}\n{TOP}"

    # ---- expressions

    def value(self, depth=3, has_operations=True):
        """An expression; in a conditional place it has no operations on streams and memories."""
        some = self.some
        kind = some.randrange(9 if depth else 3)
        if kind == 0:
            return some.choice(["0", "1", "7u", "0x7fL", "-3", "2147483647", "true", "K", "N", "4294967295ull", "017", "0b101"])
        if kind < 3:
            return self.plain(depth, has_operations)
        if kind == 3:
            return f"({some.choice(KINDS)}) {self.enclosed(depth, has_operations)}"
        if kind == 4:
            return f"{some.choice('-~!+')} {self.enclosed(depth, has_operations)}"
        if kind == 5:
            return f"({self.value(depth - 1, has_operations)} ? {self.value(depth - 1, False)} : {self.value(depth - 1, False)})"
        if kind == 6:
            return f"{some.choice(['static_cast<uint8_t>', 'int', 'unsigned', 'std::int16_t'])}({self.value(depth - 1, has_operations)})"
        return self.binary(depth, has_operations)

    def binary(self, depth, has_operations):
        sign = self.some.choice(SIGNS)
        left = self.enclosed(depth, has_operations)
        right = self.some.choice(["3", "-K", "N", "(1 << 4)"]) if sign in "/%" else self.enclosed(depth, has_operations and sign not in ("&&", "||"))
        return f"{left} {sign} {right}"

    def enclosed(self, depth, has_operations):
        return f"({self.value(depth - 1, has_operations)})"

    def plain(self, depth, has_operations):
        choice = self.some.randrange(10)
        if choice == 0 and self.arrays:
            return f"{self.some.choice(self.arrays)[0]}[{self.value(max(depth - 1, 0), has_operations)}]"
        if has_operations and choice == 1:
            return f"{self.some.choice('mw')}[{self.value(max(depth - 1, 0))} & 3]"
        if has_operations and choice == 2:
            return self.some.choice(["q.eot(nullptr)"])
        return self.some.choice(self.names)[0]

    # ---- statements

    def fresh(self):
        self.count += 1
        # one name in two blocks is two variables
        return self.some.choice(["x", "y", "z"]) + str(self.count if self.some.random() < 0.7 else self.count % 2 + 100 * self.count)

    def statement(self, depth):
        some = self.some
        choice = some.randrange(12 if depth else 7)
        if choice == 0:
            return self.declaration()
        if choice == 1:
            return self.array()
        if choice < 5:
            return self.assignment()
        if choice == 5:
            return some.choice([f"r << ({self.value()}) << ({self.value(1)});", f"r.write({self.value()});", "r.close();", "{ }", ";"])
        if choice == 6:
            return self.reading()
        return self.compound(choice, depth)

    def compound(self, choice, depth):
        if choice == 7:
            return f"if ({self.value()}) {self.block(depth)}"
        if choice == 8:
            return f"if ({self.value()}) {self.block(depth)} else {self.block(depth)}"
        if choice == 9:
            return f"for (int i = 0; i < {self.some.randint(0, 3)}; ++i) {self.block(depth, is_loop=True)}"
        if choice == 10:
            name = self.fresh()
            return f"{{ int {name} = {self.some.randint(0, 3)}; [[tapa::pipeline(1)]] while ({name} > 0) {{ {name}--; {self.block(depth, is_loop=True)} }} }}"
        return self.block(depth)

    def block(self, depth, is_loop=False):
        names, arrays = list(self.names), list(self.arrays)
        self.loops += is_loop
        jump = self.some.choice(["break;", "continue;", f"if ({self.value(1)}) break;", f"if ({self.value(1)}) continue;"])
        lines = [self.statement(depth - 1) for _ in range(self.some.randint(0, 3))]
        if self.loops and self.some.random() < 0.3:
            lines.insert(self.some.randint(0, len(lines)), jump)
        self.loops -= is_loop
        self.names, self.arrays = names, arrays
        return "{ " + " ".join(lines) + " }"

    def declaration(self):
        name, other, is_const = self.fresh(), self.fresh(), self.some.random() < 0.2
        text = f"{'const ' * is_const}{self.some.choice(KINDS)} {name} = {self.value()}"
        self.names.append((name, not is_const))
        if self.some.random() < 0.3:
            text += f", {other}"
            self.names.append((other, not is_const))
        return text + ";"

    def array(self):
        name, length = self.fresh(), self.some.choice(["1", "3", "N", "(K + 1)", "8"])
        self.arrays.append((name, length))
        return f"{self.some.choice(KINDS)} {name}[{length}];"

    def target(self):
        choice = self.some.randrange(5)
        if choice == 0 and self.arrays:
            return f"{self.some.choice(self.arrays)[0]}[{self.value(1)}]"
        if choice == 1:
            return f"{self.some.choice('mw')}[{self.value(1)} & 3]"
        return self.some.choice([name for name, is_free in self.names if is_free])

    def assignment(self):
        target = self.target()
        if self.some.random() < 0.2 and target != "b":
            return self.some.choice([f"{target} += 1;", f"{target} ^= {self.value(1)};"])
        if self.some.random() < 0.3:
            sign = self.some.choice(["+=", "-=", "*=", "&=", "|=", "^=", "<<=", ">>=", "/=", "%="])
            return f"{target} {sign} {'K' if sign in ('/=', '%=') else self.value(2)};"
        return f"{target} = {self.value()};"

    def reading(self):
        if self.some.random() < 0.3:
            return "TAPA_WHILE_NOT_EOT(q) { n += q.peek(nullptr); q.read(); } q.open();"
        return self.some.choice([f"if (!q.eot(nullptr)) q >> {self.target()};", "if (q.eot(nullptr)) q.open(); else q.read();", "q.eot(nullptr);"])


def source(seed):
    return Leaf(seed).source()
