"""The shared readers of `tools/vechaqir/`: the network that they read from a source, compared with the circuit that is built from it, constants, and that they can read any
bytes. The instances, the ends of streams and the widths are compared."""
import random
import re

from runner.groups import arrays
from runner.trial import read, sources
from vechaqir.language import kinds, lexemes, source

# Constants of a source, and their numbers.
CONSTANTS = """const int A = 3 + 4 * 2; constexpr uint8_t B = 256 + 5; const int8_t C = 200; const bool D = 7; const unsigned long E = 1ul << 63;
const int F = -7 / 2; const int G = -7 % 2; const uint32_t H = 0 - 1; const int I = 1 ? A : 9; const long J = 0xFFFFFFFF + 1; const int K = (uint8_t) 300;
const std::int16_t L = static_cast<short>(70000); const int M = 1 << 32; const int N = ~0 >> 1; const bool O = 0x80000000 < 0; const int P = int(5) == 5 && !0; const int Q = unknown; """
NUMBERS = {"A": 11, "B": 5, "C": -56, "D": 1, "E": 1 << 63, "F": -3, "G": -1, "H": 2**32 - 1, "I": 11, "J": 0, "K": 44, "L": 4464, "M": 0, "N": -1, "O": 0, "P": 1}

# What a source has that the language has not, beside a task.
OTHERS = read("tests/cases/files/others.cpp")


def circuit_of(text):
    """Of a circuit's text its instances with the streams and memories at their ports, and its streams with width and depth, each in order."""
    instances, streams = [], []
    for module, label, links in re.findall(r"^  (\w+) ([\w$]+) \( (. clk .*) \) ;$", text, re.M):
        if module.startswith("channel_"):
            width, depth, _ = module[len("channel_"):].split("_")
            streams.append((label[len("c_"):], int(width), int(depth)))
        elif module.startswith("t_"):
            ends = [re.findall(rf"\. {port}_\d+ \( {front}_(\S+)_{port} \)", links) for front, port in (("s", "wr"), ("s", "has"), ("m", "ack"))]
            instances.append((label[len("t_"):], module[len("t_"):], *(sorted(end) for end in ends)))
    return instances, streams


def network_of(network):
    """The same of a network that is read from a source."""
    memories = {it.name for it in network.memories}
    instances = []
    for it in network.instances:
        bound = sorted(set(it.bindings.values()) & memories)
        written = sorted(stream.name for stream in network.streams if stream.writer == it.label)
        taken = sorted(stream.name for stream in network.streams if stream.reader == it.label)
        instances.append((it.label, it.task, written, taken, bound))
    return instances, [(it.name, it.kind.bits + 1, it.depth) for it in network.streams]


def try_network(trial, name, text, top):
    """The network of a source, beside its circuit; whether there is one."""
    trial.put("n.cpp", text)
    said = trial.run(["build", "n.cpp", top])
    if said.status != 0:
        return False
    trial.check_equal(f"the network of {name}", network_of(source.network(source.parse(text), top)), circuit_of(said.out.decode()))
    return True


def try_networks(trial):
    """Sources of the examples, of tests, and made at random."""
    count = 0
    for path in sources("examples", "tests/cases/circuits"):
        text = read(path).encode()
        tops = [task.name for task in source.parse(text).tasks.values() if task.is_upper]
        count += try_network(trial, path, text, tops[-1])
    for seed in range(40):
        text = arrays.Source(f"readers {seed}", most_changes=0).text().encode()
        count += try_network(trial, f"random source {seed}\n{text.decode()}", text, "T")
    trial.check("networks are read", count >= 45, f"   {count}")


def try_parts(trial):
    """Constants by their kinds, and what a source has that the language has not."""
    trial.check_equal("constants", source.parse(CONSTANTS.encode()).constants, NUMBERS)
    told = source.parse(OTHERS.encode())
    trial.check_equal("tasks beside other things", list(told.tasks), ["G", "T"])
    shown = [(it.name, it.direction, it.kind.word, it.is_const, it.is_reference) for it in told.tasks["G"].parameters]
    trial.check_equal("parameters that the language has not", shown[:4], [
        ("in", "istreams", "pkt", False, True), ("m", "mmap", "float", False, False), ("out", "ostream", "ap_uint<5>", False, False), ("k", "scalar", "int", True, False)])
    top = told.tasks["T"]
    trial.check_equal("streams and arrays", [(it.name, it.kind.bits, it.depth, it.count) for it in top.streams], [("q", 8, 9, 8), ("r", 8, 9, 8), ("one", 32, 2, None)])
    shown = [(it.task, it.detached, it.count, [argument.text for argument in it.arguments]) for it in top.invokes]
    trial.check_equal("invokes", shown, [("G", True, 8, ["q", "m", "r[0]", "k+1", '"x"']), ("G", False, 1, ["r[WIDE]"])])
    trial.check_equal("the place of a parameter", tuple(told.tasks["G"].parameters[0].place), (7, 32))
    trial.check_equal("kinds by their words", [kinds.kind_at(lexemes.every(it), 0)[0][:2] for it in (b"unsigned long long int", b"std::uint8_t", b"short int")], [(64, False), (8, False), (16, True)])


def try_bytes(trial):
    """Any bytes have lexemes that make up the text with its blanks, and every front of a source can be read."""
    some = random.Random("bytes")
    whole = read("examples/lanes.cpp").encode() + OTHERS.encode()
    pieces = [it.encode() for it in "void tapa :: < > >> ( ) [ ] { } , ; & \" ' /* // # \n invoke streams T 0x 1e5 \xff \\".split(" ")]
    texts = [b"".join(some.choice(pieces) + b" " * some.randrange(2) for _ in range(some.randrange(60))) for _ in range(150)]
    for text in [whole[:end] for end in range(0, len(whole), 31)] + texts:
        found = lexemes.every(text)
        kept = re.sub(rb"\s+", b"", b"".join(it.text.encode("latin-1") for it in found)) == re.sub(rb"\s+", b"", text)
        told = source.parse(text)
        networks = [source.network(told, name) for name in told.tasks]
        trial.check(f"any bytes can be read: {text[:80]!r}", kept and len(networks) == len(told.tasks))
    for offset in (0, 5, len(whole) - 1):
        lines = lexemes.Lines(whole)
        trial.check_equal("a place and its offset", lines.offset(lines.place(offset)), offset)
