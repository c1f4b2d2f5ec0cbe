"""What `cosim --vcd` writes and what `vcd` shows of it: in every net and cycle, compared with a second writer, a second reader and the second evaluator. The dumps are of
examples and of texts with up to 9,000 nets; `vcd` reads every prefix of a dump and 200 random ones, two in three with a fault. `tests/stress/more.py PROGRAM dumps` tries
more."""
import json
import random

from runner.second import cycles, verilog
from runner.second.dumps import NoDump, Reading, rows_of, written
from runner.trial import ROOT, data_of, each, first_words, read

# ---- what `cosim --vcd` writes, beside the second evaluator


def evaluated(text, data, limit):
    """The nets of a text's top, and their values in each cycle up to the one in which it is done, or to a limit."""
    module, waits = [*verilog.modules_of(text).values()][-1], data.get("waits", {})
    scalars = {name: int(value) % 2 ** module.widths[f"v_{name}"] for name, value in data.get("scalars", {}).items()}
    memories = {name: [int(cell) % 2 ** module.widths[f"m_{name}_rdata"] for cell in cells] for name, cells in data.get("memories", {}).items()}
    machine = cycles.Machine(text, scalars, memories, {name: waits.get(name, []) for name in memories}, 0)
    nets = [(name, bits, name in module.registers) for name, bits in module.widths.items() if name != "clk" and name not in module.memories]
    rows = [[machine.net(machine.top, name) for name, _, _ in nets]]
    while machine.cycle < limit and not machine.is_done():
        machine.step()
        rows.append([machine.net(machine.top, name) for name, _, _ in nets])
    return module.name, nets, rows


def try_dump(trial, name, text, data, limit):
    """The dump of a text is that of the second evaluator's values, and ends where the report does."""
    path, given = trial.put("d.v", text), trial.put("d.json", json.dumps(data))
    words = ["cosim", path, given, "--cycles", str(limit)]
    said, report = trial.run([*words, "--vcd"]), trial.run(words)
    top, kinds, rows = evaluated(text, data, limit)
    trial.check_equal(f"{name}: the dump", said.out.decode(), written(top, kinds, rows))
    trial.check(f"{name}: status and lines of a dump", (said.status, said.err) == (report.status, report.err), f"   {said}")
    try:
        nets, last, changes = Reading(said.out.decode()).read()
        trial.check(f"{name}: the dump is read", ([(net, bits) for net, bits, _ in kinds], rows) == (nets, rows_of(nets, last, changes)))
    except NoDump as why:
        trial.check(f"{name}: the dump is one", False, f"   none from byte {why.args[0]} on")


COUNTER = read("tests/cases/files/many_nets.v")


def many_nets(count):
    """A design with so many nets more, of 1 to 128 bits, which change in each cycle or in every second one."""
    lines = []
    for k in range(count):
        bits = 1 + k % 128
        source = f"c [ {bits - 1} : 0 ]" if bits <= 8 else f"{{ {bits - 8}'d0 , c [ 7 : 0 ] }}"
        lines.append(f"wire [ {bits - 1} : 0 ] w{k}$ ;\nassign w{k}$ = {source} ;\n")
    return COUNTER + "".join(lines) + "endmodule\n"


def examples():
    """The circuits that are dumped: sources with their tops and their data."""
    for name in ("vector_add", "two_ways", "too_shallow", "run_length"):
        words = first_words(f"examples/{name}.cpp")
        yield words[0], words[1], data_of(words)


def try_dumps(trial):
    for source, top, data in examples():
        try_dump(trial, source, trial.run(["build", source, top], ROOT).out.decode(), data, 60)
    for count in (0, 90, 100, 9000):
        try_dump(trial, f"{count} more nets", many_nets(count), {}, 12 if count < 9000 else 3)


PICTURES = {
    "two_ways_fill": (["examples/two_ways.cpp", "TwoWays", "--device", "examples/devices/two_dies.json", "--no-balance"], ["examples/two_ways.json"], []),
    "two_ways_balanced": (["examples/two_ways.cpp", "TwoWays", "--device", "examples/devices/two_dies.json"], ["examples/two_ways.json"], []),
}


def try_pictures(trial):
    """The pictures of the documents are those that tools/waves.py draws of dumps."""
    for name, (built, simulated, drawn) in PICTURES.items():
        text = trial.put("p.v", trial.run(["build", *built], ROOT).out)
        dump = trial.put("p.vcd", trial.run(["cosim", text, *simulated, "--vcd"], ROOT).out)
        trial.check_equal(f"docs/{name}.svg is drawn by waves.py", trial.tool("waves.py", dump, "--fill", *drawn)[1], read(f"docs/{name}.svg"))

# ---- what `vcd` shows of a dump, beside the second reader

NAMES = ["a", "b", "clk", "rst", "done", "a$1", "_", "s_q_din", "state", "beginning", "x" * 40]


def random_dump(draw):
    """The text of a dump of some nets in some cycles."""
    nets = [(name, draw.choice((1, 1, 2, 3, 8, 64, 65, 128)), draw.random() < 0.4) for name in draw.sample(NAMES, draw.randint(0, 6))]
    rows = [[draw.choice((0, 1, 2**bits - 1, draw.randrange(2**bits))) for _, bits, _ in nets]]
    for _ in range(draw.randint(0, 12)):
        rows.append([value if draw.random() < 0.6 else draw.randrange(2**bits) for value, (_, bits, _) in zip(rows[-1], nets)])
    return written(draw.choice(("t_X", "top", "m$")), nets, rows)


def with_fault(draw, text):
    """The text with one change: a byte that is lost, another or one more, a part that is lost, or a line that is lost, doubled or out of place."""
    at, byte = draw.randrange(len(text)), draw.choice("01b #!\"$%&\nx9-")
    lines = text.splitlines(keepends=True)
    line = draw.randrange(len(lines))
    other = draw.randrange(len(lines))
    swapped = [lines[{line: other, other: line}.get(k, k)] for k in range(len(lines))]
    return draw.choice([
        text[:at] + text[at + 1 :],
        text[:at] + byte + text[at + 1 :],
        text[:at] + byte + text[at:],
        text[:at],
        text + byte,
        "".join(lines[:line] + lines[line + 1 :]),
        "".join(lines[: line + 1] + lines[line:]),
        "".join(swapped),
    ])


def place_of(text, at):
    return f"{1 + text.count(chr(10), 0, at)}:{at - text.rfind(chr(10), 0, at)}"


def wanted_of(name, text, net):
    """The status, what is shown of the net, and what is told."""
    try:
        nets, _, changes = Reading(text).read()
    except NoDump as why:
        return 1, "", f"tapa: {name}:{place_of(text, why.args[0])}: X1 no dump\n"
    places = [k for k, (other, _) in enumerate(nets) if other == net]
    if not places:
        return 1, "", f"tapa: {name}: X2 {net}\n"
    return 0, "".join(f"{cycle} {value}\n" for cycle, k, value in changes if k == places[0]), ""


def try_shown(trial, about, text, net):
    trial.put("r.vcd", text)
    said = trial.run(["vcd", "r.vcd", net])
    trial.check_equal(about, (said.status, said.out.decode(), said.err.decode()), wanted_of("r.vcd", text, net))


@each((200,))
def try_random(trial, count, seed=18):
    """Random dumps, of which two in three have one fault."""
    draw = random.Random(seed)
    for number in range(count):
        text = random_dump(draw)
        if draw.random() < 0.67:
            text = with_fault(draw, text)
        try_shown(trial, f"random dump {number}", text, draw.choice(NAMES))


def try_fronts(trial):
    """Every front part of a small dump."""
    text = written("t_X", [("rst", 1, False), ("q", 3, True)], [[1, 0], [0, 5], [0, 5], [0, 0]])
    for at in range(len(text) + 1):
        try_shown(trial, f"a dump of {at} bytes", text[:at], "q")
