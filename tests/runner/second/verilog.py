"""A second reader of the Verilog subset, written from docs/SUBSET.md ("Grammar") and from nothing else: the modules of a text, for cycles.py."""
import operator
import re

TOKEN = re.compile(r"\s*(\d+'[dhb][0-9a-fA-F]+|\d+|[A-Za-z_][\w$]*|<=|<<|>>|==|!=|[^\s\w])")
BASES = {"d": 10, "h": 16, "b": 2}
OPERATORS = {"+": operator.add, "-": operator.sub, "*": operator.mul, "/": operator.floordiv, "%": operator.mod, "&": operator.and_, "|": operator.or_, "^": operator.xor, ">>": operator.rshift}
OPERATORS["<<"] = lambda a, b: a << b if b < 128 else 0
OPERATORS |= {sign: lambda a, b, holds=holds: int(holds(a, b)) for sign, holds in (("==", operator.eq), ("!=", operator.ne), ("<", operator.lt))}


class Module:
    """What a module declares: its ports and nets with their widths, its memories, what drives its nets, its blocks and its instances."""

    def __init__(self, name):
        self.name, self.ports, self.widths, self.registers = name, {}, {}, []
        self.memories, self.drivers, self.blocks, self.instances = {}, {}, [], {}


class Reader:
    """The words of a text, one after the other."""

    def __init__(self, text):
        self.words, self.at = TOKEN.findall(text), 0

    def look(self, ahead=0):
        return self.words[self.at + ahead] if self.at + ahead < len(self.words) else ""

    def take(self, *wanted):
        word = self.look()
        self.at += 1
        if wanted and word not in wanted:
            raise ValueError(f"{word} where {' or '.join(wanted)} should be")
        return word

    def range(self):
        """The bits of a declaration."""
        if self.look() != "[":
            return 1
        self.take("[")
        high = int(self.take())
        self.take(":"), self.take("0"), self.take("]")
        return high + 1

    def atom(self):
        """An atom: a literal's width and number, or a name with the bits that are taken of it, if not all."""
        word = self.take()
        if "'" in word:
            bits, number = word.split("'")
            return "literal", int(bits), int(number[1:], BASES[number[0]])
        if self.look() == "[" and self.look(2) == ":":
            self.take("[")
            high = int(self.take())
            self.take(":")
            low = int(self.take())
            self.take("]")
            return "part", word, high, low
        return "net", word

    def value(self):
        if self.look() == "~":
            self.take()
            return "invert", self.atom()
        if self.look() == "{":
            return self.braces()
        if self.look(1) == "[" and self.look(3) == "]":
            name = self.take()
            self.take("[")
            index = self.take()
            self.take("]")
            return "cell", name, index
        first = self.atom()
        if self.look() == "?":
            self.take()
            second = self.atom()
            self.take(":")
            return "choose", first, second, self.atom()
        if self.look() in OPERATORS:
            return "operator", self.take(), first, self.atom()
        return "plain", first

    def braces(self):
        self.take("{")
        if self.look(1) == "{":
            count = int(self.take())
            self.take("{")
            parts = [self.atom()] * count
            self.take("}"), self.take("}")
            return "join", parts
        parts = [self.atom()]
        while self.take(",", "}") == ",":
            parts.append(self.atom())
        return "join", parts

    def steps(self):
        """The steps up to the `end` of their block."""
        steps = []
        while self.look() != "end":
            if self.look() == "if":
                self.take(), self.take("(")
                name = self.take()
                self.take(")"), self.take("begin")
                then, other = self.steps(), []
                if self.look() == "else":
                    self.take(), self.take("begin")
                    other = self.steps()
                steps.append(("if", name, then, other))
            else:
                name, index = self.take(), None
                if self.take("[", "<=") == "[":
                    index = self.take()
                    self.take("]"), self.take("<=")
                steps.append(("put", name, index, self.atom()))
                self.take(";")
        self.take("end")
        return steps

    def module(self):
        self.take("module")
        module = Module(self.take())
        self.take("(")
        while True:
            way, bits = self.take("input", "output"), self.range()
            name = self.take()
            module.ports[name], module.widths[name] = way, bits
            if self.take(",", ")") == ")":
                break
        self.take(";")
        while self.look() != "endmodule":
            self.item(module)
        self.take()
        return module

    def item(self, module):
        word = self.take()
        if word in ("wire", "reg"):
            bits = self.range()
            name = self.take()
            module.widths[name] = bits
            if self.look() == "[":
                self.take(), self.take("0"), self.take(":")
                module.memories[name] = bits, int(self.take()) + 1
                self.take("]")
            elif word == "reg":
                module.registers.append(name)
        elif word == "assign":
            name = self.take()
            self.take("=")
            module.drivers[name] = self.value()
        elif word == "always":
            for wanted in "@(":
                self.take(wanted)
            self.take("posedge"), self.take("clk"), self.take(")"), self.take("begin")
            module.blocks.append(self.steps())
            return
        else:
            links, name = {}, self.take()
            self.take("(")
            while True:
                self.take(".")
                port = self.take()
                self.take("(")
                links[port] = self.take()
                self.take(")")
                if self.take(",", ")") == ")":
                    break
            module.instances[name] = word, links
        self.take(";")


def modules_of(text):
    reader, modules = Reader(text), {}
    while reader.look():
        module = reader.module()
        modules[module.name] = module
    return modules
