"""What the designs of the gallery compute, in plain Python: each function takes the data of its file and gives the cells of the memories that it changes."""
import json
import os
from pathlib import Path

ROOT = os.path.dirname(os.path.dirname(os.path.dirname(os.path.dirname(os.path.abspath(__file__)))))


def data(name):
    """The scalars and memories of an example's data file, in one dictionary."""
    found = json.loads(Path(ROOT, "examples", f"{name}.json").read_text(encoding="utf-8"))
    return {**found.get("scalars", {}), **found["memories"]}


def fir(samples, n, **_):
    weights = (-1, 3, 3, -1)
    return {"filtered": [sum(weight * samples[at - k] for k, weight in enumerate(weights) if at >= k) for at in range(n)]}


def cannon(a, b, **_):
    return {"c": [sum(a[4 * row + k] * b[4 * k + column] for k in range(4)) for row in range(4) for column in range(4)]}


def butterfly(packets, rounds, **_):
    sorted_packets, counts = [], [0] * 4
    for at in range(rounds):
        of_round = packets[4 * at:4 * at + 4]
        for port in range(4):
            for packet in of_round:
                if packet & 3 == port:
                    sorted_packets.append(packet)
                    counts[port] += 1
    return {"sorted": sorted_packets, "counts": counts}


def page_rank(begins, sources, weights, ranks, base, pages, rounds):
    for _ in range(rounds):
        share = [rank * weight >> 16 for rank, weight in zip(ranks, weights)]
        ranks = [base + (sum(share[it] for it in sources[begins[page]:begins[page + 1]]) * 55705 >> 16) for page in range(pages)]
    return {"ranks": ranks}


def jacobi(grid, height, **_):
    def swept(cells):
        last = cells[:]
        for row in range(1, height - 1):
            for column in range(1, 5):
                at = 6 * row + column
                last[at] = 4 * cells[at] + cells[at - 1] + cells[at + 1] + cells[at - 6] + cells[at + 6] >> 3
        return last
    return {"swept": swept(swept(grid))}


def bandwidth(from_0, from_1, to_0, to_1, cells, mode):
    found = {}
    for name, bank, stored in (("to_0", from_0, to_0), ("to_1", from_1, to_1)):
        read = [5 * at % cells if mode & 4 else at for at in range(cells if mode & 1 else 0)]
        left = stored[:cells]
        for at in read if mode & 2 else []:
            left[at] = bank[at]
        found[name] = [*left, sum(bank[at] for at in read)]
    return found


def histogram(bytes, n, **_):
    return {"bins": [sum(it >> 5 == bin for it in bytes[:n]) for bin in range(8)]}


def bitonic(numbers, blocks, **_):
    return {"sorted": [it for block in range(blocks) for it in sorted(numbers[8 * block:8 * block + 8])]}


# The top task of each design, and what it computes.
DESIGNS = {it.__name__: ("".join(map(str.capitalize, it.__name__.split("_"))), it) for it in (fir, cannon, butterfly, page_rank, jacobi, bandwidth, histogram, bitonic)}
