"""A matrix product on a grid of processing elements, as AutoSA builds convolutional layers: feeders along two sides, a drain beside each element."""
from families.parts import Design, numbers, signed, tasks

DEPTH = 4

TASKS = tasks("grid", DEPTH=DEPTH)


def feeders(name, count):
    """The chain of feeders of one side, by the streams `name_in` and `name_0[0]`, `name_1[0]` and so on."""
    yield from (f"Feed, {name}_in[{at}], {name}_{at}[0], {name}_in[{at + 1}], {(count - 1 - at) * DEPTH}" for at in range(count - 1))
    yield f"FeedLast, {name}_in[{count - 1}], {name}_{count - 1}[0]"


def elements(rows, cols):
    for row in range(rows):
        for col in range(cols):
            yield f"Element, a_{row}[{col}], b_{col}[{row}], a_{row}[{col + 1}], b_{col}[{row + 1}], c_{col}[{row}]"
            last = f"d_{col}[{row}]"
            yield f"Drain, c_{col}[{row}], d_{col}[{row - 1}], {last}, {row}" if row else f"DrainFirst, c_{col}[{row}], {last}"


def gathers(rows, cols):
    yield f"GatherFirst, d_0[{rows - 1}], e[0], {rows}"
    yield from (f"Gather, d_{col}[{rows - 1}], e[{col - 1}], e[{col}], {rows}, {col * rows}" for col in range(1, cols))


def design(rows, cols):
    """The product of a matrix of rows by DEPTH with one of DEPTH by cols, column by column."""
    a, b = numbers(rows * DEPTH, 1, 100), numbers(cols * DEPTH, 2, 100)
    streams = [f"tapa::streams<int, {rows}> a_in", f"tapa::streams<int, {cols}> b_in, e"]
    streams += [f"tapa::streams<int, {cols + 1}, DEPTH> a_{row}" for row in range(rows)]
    streams += [f"tapa::streams<int, {rows + 1}, DEPTH> b_{col}" for col in range(cols)]
    streams += [f"tapa::streams<int, {rows}> c_{col}, d_{col}" for col in range(cols)]
    invokes = [f"Load, a, {rows * DEPTH}, a_in[0]", f"Load, b, {cols * DEPTH}, b_in[0]", *feeders("a", rows), *feeders("b", cols), *elements(rows, cols)]
    invokes += [f"End, a_{row}[{cols}]" for row in range(rows)] + [f"End, b_{col}[{rows}]" for col in range(cols)]
    invokes += [*gathers(rows, cols), f"Store, e[{cols - 1}], c, {rows * cols}"]
    wanted = [signed(sum(a[row * DEPTH + k] * b[col * DEPTH + k] for k in range(DEPTH))) for col in range(cols) for row in range(rows)]
    data = {"memories": {"a": a, "b": b, "c": [0] * (rows * cols)}}
    return Design(TASKS, "tapa::mmap<const int> a, tapa::mmap<const int> b, tapa::mmap<int> c", streams, invokes, data, {"c": wanted})
