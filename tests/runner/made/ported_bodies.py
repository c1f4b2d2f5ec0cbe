"""Statements of a source that is made at random for `tools/port.py`, in the ways of C++ that users take beyond a loop and an assignment: arrays of several dimensions, structs in arrays, vectors, numbers of some width, references, and helpers of each sort."""
from runner.made.ported import PLAIN, Place, is_number

# What the helper functions below are, and where they may be called.
LIBRARY = """template <class F> int Applied(F f, int x) { return f(x) - f(x + 1); }
template <int (*f)(int)> int Twice(int x) { return f(f(x)); }
static int Halved(int x) { return x / 2 - 3; }
static void Bump(int& x, int by) { x += by; }
static int Last(const int (&cells)[3]) { return cells[2] - cells[0]; }
static void Rotated(int cells[3], int by) {
  for (int i = 0; i < 3; ++i) cells[i] = (cells[i] << 1) ^ by;
}
template <class T, class... More> T Total(T first, More... more) {
  if constexpr (sizeof...(more) == 0) {
    return first;
  } else {
    return first + Total<T>(T(more)...);
  }
}
constexpr int Power(int of) { return of == 0 ? 1 : 3 * Power(of - 1); }
constexpr int kTable[4] = {Power(1), Power(2), -7, 1 << 20};
struct Pair {
  int left;
  int16_t right;
  Pair() : left(1), right(-1) {}
  Pair(int left, int16_t right) : left(left), right(right) {}
  Pair operator+(const Pair& o) const { return Pair(left + o.left, right + o.right); }
  bool operator<(const Pair& o) const { return left < o.left || (left == o.left && right < o.right); }
  Pair& operator+=(int by) {
    left += by;
    right -= by;
    return *this;
  }
  static Pair Of(int x) { return {x, int16_t(x >> 3)}; }
};
"""


def of_int(maker, seen, depth):
    return f"int({maker.number(seen, depth)})"


def gridded(maker, places, seen):
    """An array of two dimensions: by lists, loops, rows and computed indices."""
    some, name = maker.some, maker.name("grid")
    kind = some.choice(PLAIN)
    lists = f" = {{{{{some.randrange(9)}, {some.randrange(9)}, 1}}, {{2, {some.randrange(9)}}}}}" if some.random() < 0.5 else " = {}"
    text = f"{kind} {name}[2][3]{lists};\n"
    if some.random() < 0.6:
        text += f"for (int r = 0; r < 2; ++r)\n  for (int c = 0; c < 3; ++c) {name}[r][c] += {maker.number([*seen, Place('r', 'int'), Place('c', 'int')], 2)};\n"
    if some.random() < 0.4:
        text += f"for (auto& row : {name}) {{\n  for ({kind}& cell : row) cell ^= {maker.number(seen, 1)};\n}}\n"
    text += f"{name}[{maker.number(seen, 1)} & 1][{some.randrange(3)}] = {maker.number(seen, 2)};\n"
    return text + maker.assign(places, [*seen, Place(f"{name}[1][{maker.number(seen, 1)} & 1]", kind)]) + "\n"


def many(maker, places, seen, whole):
    """Structs in an array, copied and swapped by constant and computed indices."""
    some, name = maker.some, maker.name("many")
    variable, kind = whole
    text = f"{kind} {name}[3];\nfor (int k = 0; k < 3; ++k) {name}[k] = {variable};\n"
    text += maker.assign(maker.places(f"{name}[1]", kind), seen) + "\n"
    if some.random() < 0.6:
        text += maker.assign(maker.places(f"{name}[{maker.number(seen, 1)} & 1]", kind), seen) + "\n"
    text += some.choice((f"std::swap({name}[0], {name}[2]);\n", f"{name}[2] = {name}[{maker.number(seen, 1)} & 1];\n", f"{kind} kept_{name} = {name}[1];\n{name}[1] = {name}[0];\n{name}[0] = kept_{name};\n"))
    return text + some.choice((f"{variable} = {name}[{some.randrange(3)}];\n", f"{variable} = {maker.test(seen, 1)} ? {name}[0] : {name}[1];\n", maker.assign(places, [*seen, *maker.places(f"{name}[2]", kind)]) + "\n"))


def moved(maker, places, seen, whole):
    """A struct from its own old value: by a lambda, a swap, its steps and assignments within an expression, or a cell whose index is in that cell."""
    some, name = maker.some, maker.name("own")
    variable, kind = whole
    own, plain = maker.places(name, kind), [it for it in places if it.kind not in ("bool", "Colour") and not it.kind.startswith("ap_")]
    early = f"  if ({maker.test(seen, 1)}) return {variable};\n" if some.random() < 0.5 else ""
    forms = [f"auto made_{name} = [&](int x) {{\n  {kind} {name} = {variable};\n{early}  {maker.assign(own, [*seen, Place('x', 'int')])}\n  {maker.assign(own, [*seen, *own])}\n  return {name};\n}};\n{variable} = made_{name}({of_int(maker, seen, 1)});\n",
             f"{kind} {name} = {variable};\n{maker.assign(own, [*seen, *own])}\nstd::swap({name}, {variable});\n{maker.assign(places, [*seen, *own])}\n",
             f"{kind} {name}[2];\n{name}[0] = {name}[1] = {variable};\n{maker.assign(maker.places(f'{name}[1]', kind), seen)}\n{name}[{maker.number(maker.places(f'{name}[0]', kind), 1)} & 1] = {name}[1];\n{variable} = {name}[{maker.number(maker.places(f'{name}[1]', kind), 1)} & 1];\n"]
    if plain:
        one, two = some.choice(plain), some.choice(plain)
        forms += [f"int64_t {name} = {one.text}{some.choice(('++', '--'))};\n{name} ^= ({two.text} {some.choice(('=', '+=', '-=', '<<='))} {some.randrange(9)});\n{maker.assign(places, [*seen, Place(name, 'int64_t')])}\n"] * 2
    return some.choice(forms)


def vectors(maker, places, seen):
    """A `vec_t`: lanes by constants, loops and computed indices, and operators on the whole."""
    some, name = maker.some, maker.name("vec")
    kind, count = some.choice(PLAIN), some.choice((2, 4, 8))
    text = f"tapa::vec_t<{kind}, {count}> {name};\nfor (int k = 0; k < {count}; ++k) {name}[k] = {maker.number([*seen, Place('k', 'int')], 2)};\n"
    more = (f"{name}.set({some.randrange(count)}, {maker.number(seen, 1)});\n", f"{name} = {name} + {name};\n", f"{name}.shift({maker.number(seen, 1)});\n", f"{name}[{maker.number(seen, 1)} & {count - 1}] -= {maker.number(seen, 1)};\n", f"{name} += {kind}({maker.number(seen, 1)});\n")
    text += some.choice(more) + (some.choice(more) if some.random() < 0.4 else "")
    return text + maker.assign(places, [*seen, Place(f"{name}[{maker.number(seen, 1)} & {count - 1}]", kind), Place(f"{name}.get(1)", kind)]) + "\n"


def widths(maker, places, seen):
    """Numbers of some width: with and without sign, ranges and single bits."""
    some, name = maker.some, maker.name("w")
    bits = some.choice((3, 7, 12, 24, 33))
    sign = some.choice(("ap_uint", "ap_int"))
    text = f"{sign}<{bits}> {name} = (int64_t) {maker.number(seen, 2)};\n"
    low = some.randrange(bits - 1)
    text += some.choice((f"{name}.range({bits - 1}, {low}) = (unsigned) {maker.number(seen, 1)};\n", f"{name}[{low}] = {maker.test(seen, 1)};\n", f"{name} = {name} * 5 + 3;\n", f"++{name};\n", f"{name} >>= 2;\n", f"{name} = {name} ^ (ap_uint<{bits}>) {name};\n"))
    reads = (f"(int) {name}", f"(unsigned) {name}.range({bits - 1}, {low})", f"(int) {name}[{low}]", f"{name}.to_int64()", f"int({name} + 1)")
    return text + maker.assign(places, [*seen, Place(some.choice(reads), "int")]) + "\n"


def referred(maker, places, seen):
    """A reference to a place, and what C++ does to it by that name."""
    some, name = maker.some, maker.name("ref")
    plain = [it for it in places if it.kind in PLAIN and "[" not in it.text and maker.whole[1] not in maker.packed]   # no reference to a packed field
    if not plain:
        return maker.assign(places, seen) + "\n"
    it = some.choice(plain)
    return f"{some.choice(('auto', it.kind))}& {name} = {it.text};\n{name} {some.choice(('=', '+=', '^='))} {maker.number([*seen, Place(name, it.kind)], 2)};\n{maker.assign(places, [*seen, Place(name, it.kind)])}\n"


def stepped(maker, places, seen):
    """`++` and assignments within expressions, and commas."""
    some, name, other = maker.some, maker.name("s"), maker.name("t")
    forms = (f"{other} = {name}++ + 3;", f"{other} = 2 * --{name};", f"{other} = {name} = {maker.number(seen, 1)};", f"{other} = ({name} += 2, {name} * 3);", f"cells_{name}[{name}++ & 1] = {other}--;", f"{other} += cells_{name}[++{name} & 1];",
             f"if (({name} = {maker.number(seen, 1)}) > 7 && {other}++ < 3) {other} -= {name};", f"for ({name} = 0, {other} = 5; {name} < {other}; ++{name}, --{other}) cells_{name}[{name} & 1] += {other};", f"{other} = {name}++ > 2 ? {name} : -{name};",
             f"while ({name}-- > 1) {{\n  if ({name} & 4) break;\n  {other} ^= {name};\n}}")
    text = f"int {name} = {maker.number(seen, 1)} & 7, {other} = {some.randrange(9)};\nint cells_{name}[2] = {{1, 2}};\n" + "".join(some.choice(forms) + "\n" for _ in range(some.randrange(1, 4)))
    return text + maker.assign(places, [*seen, Place(name, "int"), Place(other, "int"), Place(f"cells_{name}[0]", "int")]) + "\n"


def called(maker, places, seen):
    """Helpers that take functions, arrays, references, packs, and lambdas that change what is around them."""
    some, name = maker.some, maker.name("h")
    forms = (f"int {name} = Applied([&](int x) {{ return {maker.number([*seen, Place('x', 'int')], 1)}; }}, {of_int(maker, seen, 1)});\n", f"int {name} = Twice<Halved>({of_int(maker, seen, 1)});\n",
             f"int {name} = {of_int(maker, seen, 1)};\nBump({name}, {of_int(maker, seen, 1)});\n", f"int {name} = Total<int>({of_int(maker, seen, 1)}, {some.randrange(9)}, {of_int(maker, seen, 0)});\n",
             f"int cells_{name}[3] = {{1, {of_int(maker, seen, 1)}, 3}};\nRotated(cells_{name}, {some.randrange(99)});\nint {name} = Last(cells_{name});\n",
             f"int {name} = {some.randrange(9)};\nauto more_{name} = [&](int by) {{\n  if (by > 100) return -1;\n  {name} += by;\n  return {name};\n}};\n{name} ^= more_{name}({of_int(maker, seen, 1)});\n",
             f"const int {name} = kTable[{maker.number(seen, 1)} & 3] + Power({some.randrange(4)});\n", f"const int {name} = Halved({of_int(maker, seen, 1)}) > 3 || Halved({of_int(maker, seen, 1)}) < -8 ? 5 : kTable[2];\n")
    return some.choice(forms) + maker.assign(places, [*seen, Place(name, "int")]) + "\n"


def paired(maker, places, seen):
    """A struct with constructors, operators and a static method, and structured bindings."""
    some, name = maker.some, maker.name("p")
    first = some.choice((f"Pair {name};\n", f"Pair {name}({of_int(maker, seen, 1)}, {some.randrange(9)});\n", f"Pair {name} = Pair::Of({of_int(maker, seen, 1)});\n", f"auto {name} = Pair::Of({some.randrange(99)}) + Pair({some.randrange(9)}, 2);\n"))
    forms = (f"{name} += {of_int(maker, seen, 1)};\n", f"{name} = {name} + Pair::Of({of_int(maker, seen, 1)});\n", f"if ({name} < Pair({some.randrange(99)}, 0)) {name}.left = {of_int(maker, seen, 1)};\n", f"const auto [a{name}, b{name}] = {name};\n{name}.left = b{name} * 3 - a{name};\n",
             f"Pair o{name} = {{{of_int(maker, seen, 1)}, 3}};\n{name} = o{name} < {name} ? o{name} : {name};\n")
    return first + some.choice(forms) + some.choice(forms[:3]) + maker.assign(places, [*seen, Place(f"{name}.left", "int"), Place(f"{name}.right", "int16_t")]) + "\n"


def chosen(maker, places, seen):
    """A declaration in a test, a conditional of conditionals, and a loop that is left in two ways."""
    some, name = maker.some, maker.name("c")
    own = [*seen, Place(name, "int")]
    forms = (f"if (int {name} = {of_int(maker, seen, 2)}; {name} > 3) {{\n  {maker.assign(places, own)}\n}} else {{\n  {maker.assign(places, own)}\n}}\n", f"if (int {name} = {of_int(maker, seen, 1)} & 6) {{\n  {maker.assign(places, own)}\n}}\n",
             f"int {name} = {of_int(maker, seen, 1)} & 15;\nwhile (true) {{\n  if ({name} > 20) break;\n  {name} += 3;\n  if ({name} == 7) continue;\n  {maker.assign(places, own)}\n}}\n",
             f"int {name} = 0;\nfor (;; ++{name}) {{\n  if ({name} >= {some.randrange(1, 5)} || {maker.test(own, 1)}) break;\n}}\n{maker.assign(places, own)}\n",
             f"int {name} = {maker.test(seen, 1)} ? {maker.test(seen, 1)} ? 1 : {of_int(maker, seen, 1)} : {of_int(maker, seen, 1)};\n{maker.assign(places, own)}\n")
    return some.choice(forms)


def indexed(maker, places, seen):
    """A cell of a field by a computed index."""
    arrays = [(it, it.text[:it.text.rindex("[")]) for it in places if it.text.endswith("]") and is_number(it.kind) and not it.kind.startswith("ap_")]
    if not arrays or maker.whole[1] in maker.packed:   # a field across two words has no computed index
        return maker.assign(places, seen) + "\n"
    it, array = maker.some.choice(arrays)
    at = f"{array}[{maker.number(seen, 1)} & 1]"
    return f"{at} {maker.some.choice(('=', '+=', '^='))} {maker.number([*seen, Place(at, it.kind)], 2)};\n"


def more(maker, places, seen, whole):
    """A statement of one of these sorts; `whole` is the variable of a struct and its type."""
    sort = maker.some.choice((gridded, many, vectors, widths, referred, stepped, called, paired, chosen, indexed, indexed, many, moved, moved))
    return sort(maker, places, seen, whole) if sort in (many, moved) else sort(maker, places, seen)
