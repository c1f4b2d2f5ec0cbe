"""Page rank in whole numbers, three rounds one after the other: in each of four lanes a task scatters along edges and asks a table beside it for what
a page gives, so the two are one group, and another task gathers what all lanes send to its pages."""
import random

from families.parts import Design, tasks

LANES, PAGES, EDGES, ROUNDS = 4, 4, 12, 3
FIRST, BASE = 1000, 150

OUTS = ", ".join(f"tapa::ostream<uint64_t>& out_{at}" for at in range(LANES))
INS = ", ".join(f"tapa::istream<uint64_t>& in_{at}" for at in range(LANES))
SENT = " else ".join(f"if (lane == {at}) {{ out_{at} << gift; }}" for at in range(LANES))
CLOSED = " ".join(f"out_{at}.close();" for at in range(LANES))
ADDED = "\n".join(
    f"  TAPA_WHILE_NOT_EOT(in_{at}) {{\n    uint64_t gift = in_{at}.read();\n    sum[gift >> 32] += int(gift & 4294967295);\n  }}\n  in_{at}.open();" for at in range(LANES)
)

# The task that follows a lane's edges, and the one that keeps its ranks and weights; all but the last round pass the edges and the weights on.
SCATTERS = tasks("rank_scatter", NAME="Scatter", PARAMETER="tapa::ostream<uint64_t>& edges_on, ", PASSED="edges_on << edge;", OUTS=OUTS, SENT=SENT, CLOSED=CLOSED)
SCATTERS += tasks("rank_scatter", NAME="ScatterLast", PARAMETER="", PASSED="", OUTS=OUTS, SENT=SENT, CLOSED=CLOSED)
TABLES = tasks("rank_table", NAME="Table", PARAMETER="tapa::ostream<int>& weights_on, ", PASSED="weights_on << weight;") + tasks("rank_table", NAME="TableLast", PARAMETER="", PASSED="")
TASKS = tasks("rank", EDGES=EDGES, PAGES=PAGES, FIRST=FIRST, BASE=BASE, INS=INS, ADDED=ADDED, SCATTERS=SCATTERS, TABLES=TABLES)


def ranked(edges, weights):
    """The ranks after all rounds; an edge is its page and the page to which it leads."""
    ranks = [FIRST] * (LANES * PAGES)
    for _ in range(ROUNDS):
        sums = [0] * len(ranks)
        for page, to in edges:
            sums[to] += ranks[page] * weights[page] >> 16
        ranks = [BASE + (total * 27 >> 5) for total in sums]
    return ranks


def round_of(at, lane):
    """The invokes of a lane in one round."""
    outs = ", ".join(f"gift_{at}_{lane}[{to}]" for to in range(LANES))
    ins = ", ".join(f"gift_{at}_{of}[{lane}]" for of in range(LANES))
    pair = f"ask_{at}[{lane}], answer_{at}[{lane}]"
    if at == ROUNDS - 1:
        yield f"ScatterLast, edges_{at}[{lane}], {pair}, {outs}"
        yield f"TableLast, ranks_{at}[{lane}], weights_{at}[{lane}], {pair}"
    else:
        yield f"Scatter, edges_{at}[{lane}], edges_{at + 1}[{lane}], {pair}, {outs}"
        yield f"Table, ranks_{at}[{lane}], weights_{at}[{lane}], weights_{at + 1}[{lane}], {pair}"
    yield f"Gather, {ins}, ranks_{at + 1}[{lane}]"


def design():
    """EDGES edges from the pages of each lane to any page; the ranks of each lane's pages after all rounds."""
    some = random.Random(8)
    ends = [[(lane * PAGES + some.randrange(PAGES), some.randrange(LANES * PAGES)) for _ in range(EDGES)] for lane in range(LANES)]
    edges = [edge for lane in ends for edge in lane]
    weights = [65536 // max(1, sum(page == at for page, _ in edges)) for at in range(LANES * PAGES)]
    lanes = range(LANES)
    invokes = [f"LoadEdges, e_{lane}, edges_0[{lane}]" for lane in lanes] + [f"LoadPages, w_{lane}, ranks_0[{lane}], weights_0[{lane}]" for lane in lanes]
    invokes += [invoke for at in range(ROUNDS) for lane in lanes for invoke in round_of(at, lane)]
    invokes += [f"Store, ranks_{ROUNDS}[{lane}], r_{lane}" for lane in lanes]
    streams = [f"tapa::streams<int, {LANES}> ranks_{at}" for at in range(ROUNDS + 1)]
    for at in range(ROUNDS):
        streams += [f"tapa::streams<uint64_t, {LANES}, EDGES> edges_{at}", f"tapa::streams<int, {LANES}, PAGES> weights_{at}"]
        streams += [f"tapa::streams<int, {LANES}> ask_{at}, answer_{at}"] + [f"tapa::streams<uint64_t, {LANES}> gift_{at}_{lane}" for lane in lanes]
    memories = {f"e_{lane}": [page % PAGES << 32 | to for page, to in ends[lane]] for lane in lanes}
    memories.update({f"w_{lane}": weights[lane * PAGES:(lane + 1) * PAGES] for lane in lanes})
    memories.update({f"r_{lane}": [0] * PAGES for lane in lanes})
    kinds = [("e", "const uint64_t"), ("w", "const int"), ("r", "int")]
    parameters = ", ".join(f"tapa::mmap<{kind}> {name}_{lane}" for name, kind in kinds for lane in lanes)
    wanted = ranked(edges, weights)
    return Design(TASKS, parameters, streams, invokes, {"memories": memories}, {f"r_{lane}": wanted[lane * PAGES:(lane + 1) * PAGES] for lane in lanes})
