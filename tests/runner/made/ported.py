"""Sources with templates, structs and helper functions, made at random for `tools/port.py`: words of a memory become structs, which pass stages and workers, and are folded into the cells of another memory."""
from typing import NamedTuple

SCALARS = ("bool", "int8_t", "uint8_t", "int16_t", "uint16_t", "int", "uint32_t", "int64_t", "uint64_t", "ap_uint<5>", "ap_uint<11>", "ap_uint<20>", "Colour", "word_t", "unsigned : 5", "int : 9", "uint64_t : 17")
PLAIN = ("int8_t", "uint8_t", "int16_t", "uint16_t", "int", "unsigned", "int64_t", "uint64_t")
HEAD = """#include <ap_int.h>
#include <tapa.h>
#include <algorithm>
#include <cstdint>

#define TWICE(x) (2 * (x) + 1)
typedef uint32_t word_t;
enum class Colour : uint8_t { kRed = 1, kGreen, kBlue = 7 };
constexpr int kWays = 2;
"""


class Field(NamedTuple):
    """A field of a struct: its type, its name, and how many cells it has if it is an array."""

    kind: str
    name: str
    cells: int


class Place(NamedTuple):
    """What can be read or assigned: its text and its type."""

    text: str
    kind: str


def is_number(kind):
    return kind not in ("bool", "Colour")


class Maker:
    """A source in the making: its structs and helper functions so far, and numbers for names."""

    def __init__(self, some):
        self.some, self.structs, self.values, self.changers, self.fillers, self.turners, self.packed, self.whole, self.count = some, {}, [], {}, {}, {}, set(), ("", ""), 0

    def name(self, front):
        self.count += 1
        return f"{front}{self.count}"

    def places(self, text, kind):
        """The numbers within a variable."""
        if kind not in self.structs:
            return [Place(text, kind)]
        found = []
        for field in self.structs[kind]:
            at = f"{text}.{field.name}"
            for index in ([""] if not field.cells else [f"[{self.some.randrange(field.cells)}]"]):
                found += self.places(at + index, field.kind)
        return found

    def every(self, text, kind):
        """All numbers within a variable."""
        if kind not in self.structs:
            return [Place(text, kind)]
        return [place for field in self.structs[kind] for at in range(max(1, field.cells)) for place in self.every(f"{text}.{field.name}" + (f"[{at}]" if field.cells else ""), field.kind)]

    def read(self, place):
        """A number of a place."""
        if place.kind == "bool":
            return self.some.choice((f"(int) {place.text}", f"({place.text} ? 3 : 1)"))
        if place.kind == "Colour":
            return f"static_cast<int>({place.text})"
        if place.kind.startswith("ap_"):
            return self.some.choice((f"{place.text}.to_uint()", f"{place.text}.to_uint64()", f"(unsigned) {place.text}"))
        return place.text

    def test(self, places, depth):
        left, right = self.number(places, depth - 1), self.number(places, depth - 1)
        made = f"{left} {self.some.choice(('<', '<=', '==', '!=', '>', '>='))} {right}"
        if depth > 1 and self.some.random() < 0.3:
            made = f"({made}) {self.some.choice(('&&', '||'))} !({self.test(places, depth - 1)})"
        return made

    def number(self, places, depth):
        """An expression without effects whose value is a number."""
        some = self.some
        if depth <= 0 or some.random() < 0.15:
            return f"({self.read(some.choice(places))})" if places and some.random() < 0.8 else str(some.choice((0, 1, 3, 7, 100, 255, 4096, 65535, 123456789)))
        chance = some.random()
        first = self.number(places, depth - 1)
        if chance < 0.5:
            return f"({first} {some.choice('+-*&|^')} {self.number(places, depth - 1)})"
        if chance < 0.6:
            return f"({first} {some.choice(('<<', '>>'))} {some.randrange(8)})"
        if chance < 0.65:
            return f"({first} {some.choice('/%')} {some.choice((2, 3, 8, 10))})"
        if chance < 0.75:
            return some.choice((f"(({some.choice(PLAIN)}) {first})", f"static_cast<{some.choice(PLAIN[:5])}>({first})", f"(-{first})", f"(~{first})"))
        if chance < 0.82:
            # g++ gives a bit field that is a branch of `?:` its declared type, and Clang what it is promoted to
            return f"({self.test(places, depth - 1)} ? +{first} : +{self.number(places, depth - 1)})"
        if chance < 0.88:
            return f"std::{some.choice(('min', 'max'))}<int>({first}, {self.number(places, depth - 1)})"
        if chance < 0.92:
            return f"TWICE(({first}))"   # in parentheses, since `first` may have a comma
        return some.choice(self.values)(self, places, depth - 1) if self.values else first

    def value(self, kind, places, depth=3):
        """An expression that a place of a type may be assigned."""
        if kind == "bool":
            return self.test(places, depth)
        if kind == "Colour":
            return self.some.choice(("Colour::kRed", "Colour::kGreen", "Colour::kBlue", f"({self.test(places, 1)} ? Colour::kRed : Colour::kBlue)"))
        made = self.number(places, depth)
        return f"(unsigned) {made}" if kind.startswith("ap_") else made

    def struct(self):
        """A struct, whose fields may be structs and arrays."""
        some, name = self.some, self.name("Item")
        kinds = [*SCALARS, *list(self.structs)[:2] * 2]
        fields = [Field(some.choice(kinds), f"f{at}", some.choice((0, 0, 0, 0, 2, 3))) for at in range(some.randrange(1, 5))]
        fields = [Field(it.kind, it.name, 0 if ":" in it.kind or it.kind in self.structs and some.random() < 0.7 else it.cells) for it in fields]
        self.structs[name] = fields
        starts = [f" = {some.randrange(9)}" if is_number(it.kind) and it.kind in PLAIN and not it.cells and some.random() < 0.2 else "" for it in fields]
        lines = "".join(f"  {it.kind.split(' :')[0]} {it.name}{f'[{it.cells}]' if it.cells else ''}{it.kind.partition(' ')[2] and ' ' + it.kind.partition(' ')[2]}{start};\n" for it, start in zip(fields, starts))
        # g++ does not pack those, and structs within them only if they are plain data
        is_plain = not any("ap_" in it.kind for it in self.every("", name)) and not any(it.kind in self.structs for it in fields)
        packed = "__attribute__((packed)) " if is_plain and some.random() < 0.25 else ""
        self.packed |= {name} if packed or any(it.kind in self.packed for it in fields) else set()
        return f"struct {packed}{name} {{\n{lines}}};\n"

    def assign(self, places, all_places):
        """A statement that assigns one of these places."""
        it = self.some.choice(places)
        if is_number(it.kind) and not it.kind.startswith("ap_") and self.some.random() < 0.3:
            return f"{it.text} {self.some.choice(('+=', '-=', '^=', '|=', '&=', '*='))} {self.value(it.kind, all_places, 2)};"
        return f"{it.text} = {self.value(it.kind, all_places)};"


def make_filler(maker, kind):
    """A helper that makes a struct of a word."""
    name, places = maker.name("Make"), maker.places("it", kind)
    own = [Place("word", "uint64_t")]
    lines = "".join(f"  {place.text} = {maker.value(place.kind, own, 2)};\n" for place in maker.every("it", kind))
    maker.changers.setdefault(kind, [])
    return name, f"static inline {kind} {name}(uint64_t word) {{\n  {kind} it;\n{lines}  {maker.assign(places, [*places, *own])}\n  return it;\n}}\n"


def make_turner(maker, kind):
    """A helper that takes a struct by value and gives another one."""
    name, some = maker.name("Turned"), maker.some
    places, own = maker.places("it", kind), [Place("by", "int")]
    early = f"  if ({maker.test([*places, *own], 2)}) return {some.choice(('it', 'old', f'{maker.fillers[kind]}(by)'))};\n" if some.random() < 0.5 else ""
    lines = "".join(f"  {maker.assign(places, [*places, *own])}\n" for _ in range(some.randrange(1, 3)))
    return name, f"{kind} {name}({kind} it, {some.choice(('int', 'const int', 'int64_t'))} by) {{\n  const {kind} old = it;\n{lines}{early}  return {maker.test([*places, *own], 1)} ? old : it;\n}}\n"


def make_fold(maker, kind):
    """A helper that folds a struct into a word."""
    name = maker.name("Fold")
    lines = "".join(f"  sum = sum * 31 + (uint64_t) {maker.read(place)};\n" for place in maker.every("it", kind))
    return name, f"uint64_t {name}(const {kind}& it) {{\n  uint64_t sum = 17;\n{lines}  return sum;\n}}\n"


def make_template(maker):
    """A function template over a type and a number."""
    name, some = maker.name("Mix"), maker.some
    limit = some.randrange(1, 4)
    places = [Place("a", "int"), Place("b", "int"), Place("i", "int")]
    step = maker.number(places, 2)
    maker.values.append(lambda it, seen, depth: f"{name}<{it.some.choice(PLAIN[3:])}, {it.some.randrange(1, 5)}>({it.number(seen, depth)}, {it.number(seen, depth)})")
    early = f"    if ({maker.test(places, 1)}) {some.choice(('break', 'continue', 'return T(a)'))};\n" if some.random() < 0.5 else ""
    return f"template <class T, int N>\nT {name}(T a, T b) {{\n  for (int i = 0; i < N + {limit}; ++i) {{\n{early}    a = T({step});\n    b += N;\n  }}\n  return {some.choice(('a', 'a ^ b', 'T(a - b)'))};\n}}\n"


def make_value(maker):
    """A helper that gives a number."""
    name, kind = maker.name("Of"), maker.some.choice(PLAIN)
    places = [Place("x", "int"), Place("y", "uint16_t")]
    early = f"  if ({maker.test(places, 2)}) return {maker.number(places, 2)};\n" if maker.some.random() < 0.5 else ""
    text = f"inline {kind} {name}(int x, uint16_t y) {{\n{early}  return {maker.number(places, 3)};\n}}\n"
    maker.values.append(lambda it, seen, depth: f"{name}({it.number(seen, depth)}, {it.number(seen, depth)})")
    return text


def make_changer(maker, kind):
    """A helper that changes a struct by reference."""
    name, some = maker.name("Change"), maker.some
    places, own = maker.places("it", kind), [Place("by", "int")]
    lines = [maker.assign(places, [*places, *own]) for _ in range(some.randrange(1, 3))]
    if some.random() < 0.5:
        lines.insert(0, f"if ({maker.test([*places, *own], 2)}) {some.choice(('return false', 'by += 3'))};")
    maker.changers.setdefault(kind, []).append(name)
    return f"bool {name}({kind}& it, int by) {{\n  {chr(10).join('  ' + line for line in lines).strip()}\n  return {maker.test([*places, *own], 1)};\n}}\n"
