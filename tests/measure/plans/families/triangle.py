"""Gaussian elimination on a triangle of processing elements: row k of it makes the k-th column of a matrix zero below its pivot, which is 1."""
import random

from families.parts import Design, signed, tasks

TASKS = tasks("triangle")


def row(at, size):
    """The invokes of one row of the triangle, from its pivot to its edge. The stream `down_J[K]` leads into row K of column J, `factor_K[I]` and
    `row_K[I]` lead from the I-th element of row K to the next."""
    count = size - 1 - at
    if count == 0:
        yield f"PivotLast, down_{at}[{at}], row_{at}[0]"
        return
    yield f"Pivot, down_{at}[{at}], factor_{at}[0], row_{at}[0], {count}"
    for col in range(at + 1, size):
        left = col - at
        ends = f"down_{col}[{at}], factor_{at}[{left - 1}], row_{at}[{left - 1}], down_{col}[{at + 1}]"
        if col == size - 1:
            yield f"Edge, {ends}, row_{at}[{left}], {count}, {left}"
        else:
            yield f"Inner, {ends}, factor_{at}[{left}], row_{at}[{left}], {count}, {left}"


def matrix(size, some):
    """A matrix whose elimination meets pivots of 1: the product of two triangles with 1 on their diagonals."""
    low = [[some.randrange(-3, 4) if col < at else int(col == at) for col in range(size)] for at in range(size)]
    high = [[some.randrange(-3, 4) if col > at else int(col == at) for col in range(size)] for at in range(size)]
    return [[signed(sum(low[at][k] * high[k][col] for k in range(size))) for col in range(size)] for at in range(size)]


def eliminated(rows):
    """The rows of a matrix after elimination, each from its pivot on."""
    left = [list(row) for row in rows]
    for at, pivot in enumerate(left):
        for below in left[at + 1:]:
            factor = below[at]
            below[:] = [signed(cell - factor * over) for cell, over in zip(below, pivot)]
    return [cell for at, row in enumerate(left) for cell in row[at:]]


def design(size):
    rows = matrix(size, random.Random(size))
    invokes = [f"Load, a, {size * size}, fed[0]"]
    invokes += [f"Feed, fed[{at}], down_{at}[0], fed[{at + 1}], {size}, {(size - 1 - at) * size}" for at in range(size - 1)]
    invokes += [f"FeedLast, fed[{size - 1}], down_{size - 1}[0], {size}", *(invoke for at in range(size) for invoke in row(at, size))]
    invokes.append(f"GatherFirst, row_0[{size - 1}], out[0], {size}")
    before = [sum(range(size - at + 1, size + 1)) for at in range(size)]
    invokes += [f"Gather, row_{at}[{size - 1 - at}], out[{at - 1}], out[{at}], {size - at}, {before[at]}" for at in range(1, size)]
    cells = size * (size + 1) // 2
    invokes.append(f"Store, out[{size - 1}], u, {cells}")
    streams = [f"tapa::streams<int, {size}> fed, out"] + [f"tapa::streams<int, {col + 1}> down_{col}" for col in range(size)]
    streams += [f"tapa::streams<int, {size - 1 - at}, {size}> factor_{at}" for at in range(size - 1)] + [f"tapa::streams<int, {size - at}> row_{at}" for at in range(size)]
    data = {"memories": {"a": [row[col] for col in range(size) for row in rows], "u": [0] * cells}}
    return Design(TASKS, "tapa::mmap<const int> a, tapa::mmap<int> u", streams, invokes, data, {"u": eliminated(rows)})
