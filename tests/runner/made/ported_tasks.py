"""The tasks of a source that is made at random for `tools/port.py`, and its data."""
from runner.made import ported, ported_bodies, ported_stages
from runner.made.ported import PLAIN, Maker, Place

BOX = """template <class T, int N>
struct Box {
  T cells[N];
  uint16_t at = 0;
  void Put(T value) { cells[at++ % N] = value; }
  T Sum() const {
    T sum = 0;
    for (int i = 0; i < N; ++i) sum += cells[i];
    return sum;
  }
};
"""


def indented(text):
    return "".join(f"  {line}\n" for line in text.splitlines())


def block(maker, places, seen, depth):
    """Some statements of a body: those places may be assigned, and these read."""
    return "".join(statement(maker, places, seen, depth) for _ in range(maker.some.randrange(1, 3)))


def looped(maker, places, seen, depth):
    """A loop of each sort."""
    some, name = maker.some, maker.name("i")
    inner = [*seen, Place(name, "int")]
    leave = f"  if ({maker.test(inner, 2)}) {some.choice(('break', 'continue'))};\n" if some.random() < 0.4 else ""
    body = block(maker, places, inner, depth - 1)
    count = some.randrange(1, 5)
    sort = some.randrange(4)
    if sort == 0:
        return f"for (int {name} = 0; {name} < {count}; ++{name}) {{\n{leave}{indented(body)}}}\n"
    if sort == 1:
        return f"for (int {name} = {count}, k{name} = 0; {name} > 0; --{name}, k{name} += 2) {{\n{leave}{indented(body)}}}\n"
    leave = leave.replace("continue", "break")
    if sort == 2:
        return f"int {name} = 0;\ndo {{\n{leave}{indented(body)}}} while (++{name} < {count});\n"
    return f"int {name} = {count};\nwhile ({name}-- > 0) {{\n{leave}{indented(body)}}}\n"


def switched(maker, places, seen, depth):
    """A `switch`, whose cases are blocks, since some declare variables; some fall through."""
    cases = ""
    for at in [*range(maker.some.randrange(1, 4)), None]:
        if at is not None or maker.some.random() < 0.6:
            leave = "    break;\n" if at is not None and maker.some.random() < 0.7 else ""
            cases += f"  {'default' if at is None else f'case {at}'}: {{\n{indented(indented(block(maker, places, seen, depth - 1)))}  }}\n{leave}"
    return f"switch ({maker.number(seen, 2)} & 3) {{\n{cases}}}\n"


def listed(maker, places, seen):
    """A list of cells that is filled by a counter."""
    some, name, at = maker.some, maker.name("list"), maker.name("at")
    kind = some.choice(PLAIN)
    fills = "".join(f"{name}[{at}++] = {maker.number(seen, 2)};\n" for _ in range(3))
    read = Place(f"{name}[{maker.number(seen, 1)} & 3]", kind)
    return f"{kind} {name}[4] = {{{', '.join(str(some.randrange(9)) for _ in range(some.randrange(1, 5)))}}};\nint {at} = 0;\n{fills}{maker.assign(places, [*seen, read, Place(at, 'int')])}\n"


def boxed(maker, places, seen):
    some, name = maker.some, maker.name("box")
    kind, size = some.choice(PLAIN[3:]), some.randrange(2, 5)
    return (f"Box<{kind}, {size}> {name};\nfor (int k = 0; k < {size}; ++k) {name}.cells[k] = k;\n" + "".join(f"{name}.Put({maker.number(seen, 2)});\n" for _ in range(some.randrange(1, 4)))
            + maker.assign(places, [*seen, Place(f"{name}.Sum()", kind)]) + "\n")


def lambdas(maker, places, seen):
    name = maker.name("add")
    own = [Place("x", "int"), *seen]
    return f"auto {name} = [&](int x) {{ return {maker.number(own, 2)}; }};\n{maker.assign(places, [*seen, Place(f'{name}({maker.number(seen, 1)})', 'int')])}\n"


def statement(maker, places, seen, depth):
    """A statement, which may assign these places and read those that are seen."""
    some, chance = maker.some, maker.some.random()
    if depth > 0 and chance < 0.14:
        return looped(maker, places, seen, depth)
    if depth > 0 and chance < 0.2:
        return switched(maker, places, seen, depth)
    if depth > 0 and chance < 0.4:
        other = f" else {{\n{indented(block(maker, places, seen, depth - 1))}}}" if some.random() < 0.5 else ""
        return f"if ({maker.test(seen, 2)}) {{\n{indented(block(maker, places, seen, depth - 1))}}}{other}\n"
    if chance < 0.44:
        return listed(maker, places, seen)
    if chance < 0.47:
        return boxed(maker, places, seen)
    if chance < 0.5:
        return lambdas(maker, places, seen)
    if chance < 0.74:
        return ported_bodies.more(maker, places, seen, maker.whole)
    if chance < 0.8:
        name = maker.name("x")
        kind = "int64_t" if any(":" in it.kind for it in seen) else "auto"   # g++ 12 takes the type of a bit field for `auto` within a template, and not what it becomes
        return f"const {kind} {name} = {maker.number(seen, 3)};\n{maker.assign(places, [*seen, Place(name, 'int')])}\n"
    return maker.assign(places, seen) + "\n"


def changed(maker, variable, kind, seen):
    """A call of a helper that changes a struct."""
    called = f"{maker.some.choice(maker.changers[kind])}({variable}, {maker.number(seen, 1)})"
    return maker.some.choice((f"{called};\n", f"if ({called}) {{\n  {maker.assign(maker.places(variable, kind), seen)}\n}}\n", f"const bool is_{variable} = {called};\nif (!is_{variable}) {{\n  {maker.assign(maker.places(variable, kind), seen)}\n}}\n"))


def worked(maker, taken, given, extra, read="in.read(nullptr)"):
    """The body of a stage's loop: from a struct that it read to one that it writes."""
    some, one = maker.some, Place(extra, "int")
    places = maker.places("in_token", taken)
    seen = [*places, one]
    maker.whole = ("in_token", taken)
    lines = f"{taken} in_token = {read};\n"
    lines += changed(maker, "in_token", taken, seen) if maker.changers.get(taken) and some.random() < 0.7 else ""
    lines += "".join(statement(maker, places, seen, 2) for _ in range(some.randrange(1, 3)))
    if taken == given:
        lines += f"{given} token = {some.choice(('in_token', f'{maker.turners[given]}(in_token, {maker.number(seen, 1)})'))};\n"
    else:
        lines += f"{given} token = {maker.fillers[given]}({maker.number(seen, 2)});\n"
    maker.whole = ("token", given)
    own = maker.places("token", given)
    lines += "".join(statement(maker, own, [*seen, *own], 1) for _ in range(some.randrange(1, 3)))
    lines += f"token = {maker.turners[given]}(token, {maker.number(seen, 1)});\n" if some.random() < 0.2 else ""
    return lines + f"{some.choice(('out.write(token)', 'out << token', f'Sent<{given}>(out, token)'))};\n"


def stage(maker, taken, given, name):
    """A stage, a template over a number; what it looks at before it reads goes to a stream of its own."""
    some = maker.some
    begin, read, end = some.choice(ported_stages.WAITS)
    is_late = "late" in begin
    early = f"  if (K == {some.randrange(5)}) {{\n    out.write({maker.fillers[given]}(K));\n    Drain<{taken}>(in);\n    out.close();\n{'    late.close();' if is_late else ''}    return;\n  }}\n" if some.random() < 0.3 else ""
    body = worked(maker, taken, given, "held", read.format(taken))
    last = f"  Finished<{taken}>(in, {'late' if is_late else 'out'});\n" if taken == given or is_late else "  in.open();\n  out.close();\n"
    last += "  out.close();\n" if is_late else ""
    more = f", tapa::ostream<{taken}>& late" if is_late else ""
    inner = begin.format(taken) + indented(body) + "  held += K;\n" + end.format(taken)
    return f"template <int K>\nvoid {name}(tapa::istream<{taken}>& in, tapa::ostream<{given}>& out{more}) {{\n  int held = K;\n{early}{indented(inner)}{last}}}\n", is_late


def declared(maker):
    """Structs and helper functions."""
    some, text = maker.some, ported.HEAD + BOX + ported_bodies.LIBRARY + ported_stages.HELPERS
    for _ in range(some.randrange(2, 4)):
        text += maker.struct()
    for _ in range(some.randrange(1, 4)):
        text += some.choice((ported.make_template, ported.make_value))(maker)
    for kind in list(maker.structs):
        maker.fillers[kind], made = ported.make_filler(maker, kind)
        maker.turners[kind], turner = ported.make_turner(maker, kind)
        text += made + turner + (ported.make_changer(maker, kind) if some.random() < 0.6 else "")
    return text


def top(streams, calls, more, memories):
    """The top task."""
    lines = "".join(f'  tapa::stream<{kind}, {depth}> {name}("{name}");\n' for kind, depth, name in streams)
    return f"void Top({memories}, int n) {{\n{lines}{more}  tapa::task()\n" + "\n".join(f"      .{it}" for it in calls) + ";\n}\n"


def staged(maker, chain, streams, calls):
    """The stages of a chain of structs."""
    some, text = maker.some, ""
    for at, (taken, given) in enumerate(zip(chain, chain[1:])):
        made, is_late = stage(maker, taken, given, f"Stage{at}")
        text += made
        streams.append((given, some.randrange(1, 5), f"q{at + 1}"))
        calls.append(f"invoke(Stage{at}<{some.randrange(5)}>, q{at}, q{at + 1}{f', late{at}' if is_late else ''})")
        if is_late:
            streams.append((taken, some.randrange(1, 5), f"late{at}"))
            calls.append(f"invoke(Drain<{taken}>, late{at})")
    return text


def source(some):
    """A source, whose top task is Top, and three sets of data."""
    maker = Maker(some)
    text = declared(maker)
    chain = [some.choice(list(maker.structs)) for _ in range(some.randrange(2, 4))]
    fold, made = ported.make_fold(maker, chain[-1])
    ends, memories = ported_stages.ends(some, (chain[0], maker.fillers[chain[0]], chain[-1], fold))
    text += made + ends
    streams, calls = [(chain[0], some.randrange(1, 5), "q0")], ["invoke(Load, m, n, q0)"]
    text += staged(maker, chain, streams, calls)
    last, name = chain[-1], f"q{len(chain) - 1}"
    more, parameters = "", f"tapa::{memories[0][:-1] or 'mmap<const uint64_t>'}{'&' if memories[0] else ''} m, tapa::{memories[1] or 'mmap<uint64_t>'} out"
    if some.random() < 0.5:
        lane = maker.number(maker.places("it", last), 1)
        made, more, name = ported_stages.middle(some, last, indented(indented(worked(maker, last, last, "id"))), lane, calls, name)
        text += made
    if some.random() < 0.3:
        text += ported_stages.KEEP.format(last)
        streams.append((last, 2, "again"))
        calls.append(f"invoke(Keep, {name}, kept, again)")
        name, parameters = "again", f"{parameters}, tapa::mmap<{last}> kept"
    calls.append(f"invoke(Store, {name}, out)")
    return text + top(streams, calls, more, parameters), [data(some, count) for count in (0, 1, some.randrange(2, 6))]


def data(some, count):
    return {"scalars": {"n": count}, "memories": {"m": [some.choice((some.getrandbits(64), some.getrandbits(16), some.getrandbits(64))) for _ in range(count)], "out": [0] * 8}}
