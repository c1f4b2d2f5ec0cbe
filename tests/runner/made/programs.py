"""Programs and device files by their sizes: sources as long as may be, chains, networks of many streams, hubs, tasks side by side or by phases, grids of slots."""
import json

LIMIT = 262_144


def filled(head, part, tail=""):
    """A source of at most the limit's bytes, with as many of a part as there is room for, and how many."""
    parts, size, number = [head], len(head) + len(tail), 0
    while size + len(part(number)) <= LIMIT:
        parts.append(part(number))
        size += len(parts[-1])
        number += 1
    return "".join([*parts, tail]), number


def name(number):
    """A short name of its own for each number."""
    letters = "abcdefghijklmnopqrstuvwxyzABCDEFGHIJKLMNOPQRSTUVWXYZ"
    text = ""
    while True:
        text = letters[number % 52] + text
        number = number // 52 - 1
        if number < 0:
            return "q" + text


def chain(tasks, tokens):
    """Tasks that pass so many tokens on, one to the next."""
    first = f"void P(tapa::ostream<int>& q) {{ for (int i = 0; i < {tokens}; ++i) q << i; }}\n"
    middle = f"void M(tapa::istream<int>& p, tapa::ostream<int>& q) {{ for (int i = 0; i < {tokens}; ++i) q << p.read(); }}\n"
    last = f"void C(tapa::istream<int>& q) {{ for (int i = 0; i < {tokens}; ++i) q.read(); }}\n"
    streams = "".join(f"tapa::stream<int, 16> s{number}; " for number in range(tasks - 1))
    middles = "".join(f".invoke(M, s{number}, s{number + 1})" for number in range(tasks - 2))
    return first + middle + last + f"void T() {{ {streams}tapa::task().invoke(P, s0){middles}.invoke(C, s{tasks - 2}); }}\n"


def network(count, streams):
    """Tasks T0, T1 and so on, with streams from a writer to a reader, each of a type."""
    tasks, chain_of = [], []
    for task in range(count):
        own = [(at, "w" if writer == task else "r", kind) for at, (writer, reader, kind) in enumerate(streams) if task in (writer, reader)]
        ends = ",".join(f"tapa::{'o' if end == 'w' else 'i'}stream<{kind}>& {end}{at}" for at, end, kind in own)
        tasks.append(f"void T{task}({ends}) {{}}\n")
        chain_of.append(f".invoke({','.join([f'T{task}', *(f's{at}' for at, _, _ in own)])})")
    declared = "".join(f"tapa::stream<{kind}> s{at};" for at, (_, _, kind) in enumerate(streams))
    return "".join(tasks) + f"void T() {{ {declared} tapa::task(){''.join(chain_of)}; }}\n"


def device(rows, cols, capacity, tasks, **more):
    """A device whose slots are alike, and what the tasks use of them in LUT."""
    uses = {f"T{task}": {"LUT": use} for task, use in enumerate(tasks)}
    return json.dumps({"rows": rows, "cols": cols, "percent": 100, "slots": [{"LUT": capacity}] * (rows * cols), "tasks": uses, **more})


def hub(workers, rounds):
    """A task that sends a token to each worker and reads one back, again and again."""
    worker = f"void W(tapa::istream<int>& p, tapa::ostream<int>& q) {{ for (int i = 0; i < {rounds}; ++i) q << p.read(); }}\n"
    ends = [f"tapa::ostream<int>& a{at}" for at in range(workers)] + [f"tapa::istream<int>& b{at}" for at in range(workers)]
    sends = "".join(f"a{at} << i; " for at in range(workers)) + "".join(f"b{at}.read(); " for at in range(workers))
    task = f"void H({', '.join(ends)}) {{ for (int i = 0; i < {rounds}; ++i) {{ {sends}}} }}\n"
    streams = "".join(f"tapa::stream<int, 2> s{at}; tapa::stream<int, 2> t{at}; " for at in range(workers))
    bound = ", ".join([f"s{at}" for at in range(workers)] + [f"t{at}" for at in range(workers)])
    chained = "".join(f".invoke(W, s{at}, t{at})" for at in range(workers))
    return f"{worker}{task}void Top() {{ {streams}tapa::task().invoke(H, {bound}){chained}; }}\n"


def apart(tasks, turns):
    """Tasks that have nothing to do with one another until they end, and one that waits for them all."""
    busy = f"void B(tapa::ostream<int>& q) {{ int x = 1; for (int i = 0; i < {turns}; ++i) {{ x = x * 5 + i; }} q << x; }}\n"
    ends = ", ".join(f"tapa::istream<int>& q{at}" for at in range(tasks))
    reads = " ".join(f"q{at}.read();" for at in range(tasks))
    streams = " ".join(f"tapa::stream<int> q{at};" for at in range(tasks))
    calls = "".join(f".invoke(B, q{at})" for at in range(tasks))
    bound = ", ".join(f"q{at}" for at in range(tasks))
    return f"{busy}void C({ends}) {{ {reads} }}\nvoid Top() {{ {streams} tapa::task(){calls}.invoke(C, {bound}); }}\n"


def by_phases(tokens, turns, rounds):
    """Two tasks that hand tokens to and fro, and then have much to do each by itself, again and again."""
    start = f"int x = 1; for (int n = 0; n < {rounds}; ++n) {{ for (int i = 0; i < {tokens}; ++i) {{ "
    end = f"}} for (int i = 0; i < {turns}; ++i) {{ x = x * 5 + i; }} }}"
    ends = "tapa::istream<int>& p, tapa::ostream<int>& q"
    return (
        f"void A({ends}) {{ {start}q << x; x = x + p.read(); {end} }}\nvoid B({ends}) {{ {start}x = x + p.read(); q << x; {end} }}\n"
        "void Top() { tapa::stream<int, 1> a; tapa::stream<int, 1> b; tapa::task().invoke(A, a, b).invoke(B, b, a); }\n"
    )


def pair(count, rounds):
    """Two tasks with so many streams from the one to the other."""
    writes = "".join(f"s{at} << i; " for at in range(count))
    reads = "".join(f"s{at}.read(); " for at in range(count))
    outs = ", ".join(f"tapa::ostream<int>& s{at}" for at in range(count))
    ins = ", ".join(f"tapa::istream<int>& s{at}" for at in range(count))
    streams = "".join(f"tapa::stream<int, 2> s{at}; " for at in range(count))
    bound = ", ".join(f"s{at}" for at in range(count))
    return (
        f"void P({outs}) {{ for (int i = 0; i < {rounds}; ++i) {{ {writes}}} }}\n"
        f"void C({ins}) {{ for (int i = 0; i < {rounds}; ++i) {{ {reads}}} }}\n"
        f"void Top() {{ {streams}tapa::task().invoke(P, {bound}).invoke(C, {bound}); }}\n"
    )


def queue(depth, tokens):
    """A task that is held up on its output, behind a stream of a depth."""
    return (
        f"void P(tapa::ostream<int>& q) {{ for (int i = 0; i < {tokens}; ++i) q << i; }}\n"
        f"void M(tapa::istream<int>& p, tapa::ostream<int>& q) {{ for (int i = 0; i < {tokens}; ++i) q << p.read(); }}\n"
        f"void C(tapa::istream<int>& q) {{ for (int i = 0; i < {tokens}; ++i) q.read(); }}\n"
        f"void Top() {{ tapa::stream<int, {depth}> a; tapa::stream<int, 1> b; tapa::task().invoke(P, a).invoke(M, a, b).invoke(C, b); }}\n"
    )


def uneven(turns, tokens):
    """A chain of tasks that pass tokens on, each after so many turns of its own."""
    ends, tasks, calls = len(turns) - 1, "", ""
    for at, count in enumerate(turns):
        ports = ["tapa::istream<int>& p"] * (at > 0) + ["tapa::ostream<int>& q"] * (at < ends)
        first, last = ("p.read()" if at > 0 else "i"), ("q << x; " if at < ends else "")
        tasks += f"void S{at}({', '.join(ports)}) {{ for (int i = 0; i < {tokens}; ++i) {{ int x = {first}; for (int k = 0; k < {count}; ++k) {{ x = x * 5 + k; }} {last}}} }}\n"
        bound = [f"s{at - 1}"] * (at > 0) + [f"s{at}"] * (at < ends)
        calls += f".invoke(S{at}, {', '.join(bound)})"
    streams = " ".join(f"tapa::stream<int, 16> s{at};" for at in range(ends))
    return f"{tasks}void Top() {{ {streams} tapa::task(){calls}; }}\n"


def one_heavy(turns, tasks, tokens):
    """A task that makes turns beside a chain of light ones."""
    busy = f"void B() {{ int x = 1; for (int i = 0; i < {turns}; ++i) {{ x = x * 5 + i; }} }}\n"
    return busy + uneven([0] * tasks, tokens).replace("tapa::task()", "tapa::task().invoke(B)")


def random_network(some):
    """A network of random tasks and streams: its source, top task, data and a random device for it."""
    count = some.choice([1, 2, 3, 5, 8, 13, 21, 22, 23, 40]) if some.random() < 0.97 else some.choice([200, 512])
    streams = []
    for _ in range(some.randint(0, 2 * count) if count > 1 else 0):
        ends = some.sample(range(count), 2)
        streams.append((*(sorted(ends) if some.random() < 0.95 else ends), some.choice(["bool", "uint8_t", "int16_t", "int", "uint64_t"])))
    rows, cols = some.choice([(1, 1), (2, 1), (2, 2), (4, 1), (3, 2), (8, 4)])
    uses = [some.randint(0, 30) for _ in range(count)]
    more = {}
    if some.random() < 0.5:
        more = {"version": 2, "levels_rows": [some.randint(0, 16) for _ in range(rows - 1)], "levels_cols": [some.randint(0, 16) for _ in range(cols - 1)]}
        more["forbidden"] = [[some.randrange(rows), some.randrange(cols)] for _ in range(some.choice([0, 0, 1, 3]))]
    pins = {f"T{task}${task}": [some.randrange(rows), some.randrange(cols)] for task in range(count) if some.random() < 0.2}
    capacity = max(1, int(sum(uses) / rows / cols * some.choice([0.9, 1.1, 1.5, 3])))
    given = device(rows, cols, capacity, uses, pins=pins, **more)
    return network(count, streams).encode(), "T", b"{}", given.encode()
