"""Graphs in shapes that make balancing slow: pairs of tasks with a stream from the first to the second, at most two streams a task."""
import itertools
import random


def chain(count):
    return [(at, at + 1) for at in range(count - 1)]


def apart(count, some):
    """Two tasks in order."""
    return tuple(sorted(some.sample(range(count), 2)))


def zigzag(count, some):
    return [(at, at + 2) for at in range(count - 2)] + chain(count)


def ladder(count, some):
    return [(at, at + 2) for at in range(count - 2)] + [(at, at + 1) for at in range(0, count - 1, 2)]


def crossed_ladder(count, some):
    crosses = [(at, at + 3) if at % 4 else (at + 1, at + 2) for at in range(0, count - 3, 2)]
    return ladder(count, some) + crosses


def chords(count, some):
    return chain(count) + [apart(count, some) for _ in range(count)]


def nested_chords(count, some):
    half = range(count // 2)
    return chain(count) + [(at, count - 1 - at) for at in half] + [(at, count - 2 - at) for at in half if at < count - 2 - at]


def short_chords(count, some):
    starts = [some.randrange(count - 3) for _ in range(count)]
    return chain(count) + [(at, min(count - 1, at + some.randint(2, 8))) for at in starts]


def chords_to_the_last(count, some):
    return chain(count) + [(at, count - 1) for at in range(count - 2)]


def layers(most):
    """So many layers at most, of two tasks at least."""

    def made(count, some):
        tall = min(most, count // 2)
        wide = count // tall
        rows = [some.randrange(tall - 1) for _ in range(2 * count)]
        return [(row * wide + some.randrange(wide), (row + 1) * wide + some.randrange(wide)) for row in rows]

    return made


def scattered(count, some):
    return [apart(count, some) for _ in range(2 * count)]


def star(count, some):
    return [pair for at in range(1, count - 1) for pair in ((0, at), (at, count - 1))]


def stars(count, some):
    size = max(4, count // 16)
    firsts = range(0, count - size + 1, size)
    spokes = [pair for first in firsts for at in range(1, size - 1) for pair in ((first, first + at), (first + at, first + size - 1))]
    return spokes + [(first - 1, first) for first in firsts if first]


def trees(count, some):
    """A tree that spreads out, one that gathers, and streams between their leaves."""
    half = count // 2
    out = [((at - 1) // 2, at) for at in range(1, half)]
    gathered = [(count - 1 - at, count - 1 - (at - 1) // 2) for at in range(1, half)]
    return out + gathered + [(some.randrange(half // 2, half), count - 1 - some.randrange(half // 2, half)) for _ in range(count)]


def grid(count, some):
    side = int(count**0.5)
    return [pair for row, col in itertools.product(range(side), repeat=2) for pair in grid_steps(row, col, side)]


def grid_steps(row, col, side):
    at = row * side + col
    return [(at, at + 1)] * (col + 1 < side) + [(at, at + side)] * (row + 1 < side)


def two_sides(count, some):
    half = count // 2
    return [(some.randrange(half), half + some.randrange(half)) for _ in range(2 * count)]


SHAPES = {
    "a chain, each stream twice": lambda count, some: chain(count) + chain(count),
    "a zigzag": zigzag,
    "two rails with rungs": ladder,
    "two rails with crosses": crossed_ladder,
    "a chain with chords": chords,
    "a chain with nested chords": nested_chords,
    "a chain with short chords": short_chords,
    "a chain with chords to the last": chords_to_the_last,
    "wide layers": layers(16),
    "narrow layers": layers(128),
    "streams at random": scattered,
    "a star": star,
    "stars in a row": stars,
    "two trees": trees,
    "a grid": grid,
    "two sides": two_sides,
}
ORDERS = {
    "as they come": lambda pairs, some: pairs,
    "from the end": lambda pairs, some: sorted(pairs, reverse=True),
    "mixed": lambda pairs, some: some.sample(pairs, len(pairs)),
}
# the slot of each task, of the 8 by 4 of a device
PLACES = {
    "at random": lambda at, count, some: some.randrange(32),
    "in order": lambda at, count, some: at * 32 // count,
    "in two corners": lambda at, count, some: 31 * (at % 2),
}


def shaped(shape, order, count):
    """The streams of a shape, at most two a task."""
    some = random.Random(f"{shape} {order} {count}")
    return ORDERS[order](SHAPES[shape](count, some)[: 2 * count], some)


def slots_of(place, count):
    """A slot for each task."""
    some = random.Random(place)
    return [PLACES[place](at, count, some) for at in range(count)]
