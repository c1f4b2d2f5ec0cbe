"""A chain of stencil kernels, each of five taps along a line of tokens and the task that adds them, as SODA builds them."""
from families.parts import Design, numbers, signed, tasks

WIDTH, KEPT = 4, 16
TAPS = (0, WIDTH - 1, WIDTH, WIDTH + 1, 2 * WIDTH)

TASKS = tasks("stencil")


def kernel(at, count):
    """The invokes of one kernel, which takes `count` tokens and gives 2 * WIDTH fewer."""
    given = count - 2 * WIDTH
    for tap, first in enumerate(TAPS[:-1]):
        taken = f"line[{at}]" if tap == 0 else f"on_{at}[{tap - 1}]"
        yield f"Tap, {taken}, on_{at}[{tap}], tap_{at}[{tap}], {count}, {first}, {first + given}"
    yield f"TapLast, on_{at}[3], tap_{at}[4], {count}, {TAPS[-1]}"
    yield f"Add, tap_{at}[0], tap_{at}[1], tap_{at}[2], tap_{at}[3], tap_{at}[4], line[{at + 1}], {given}"


def design(count):
    """So many kernels in a row; KEPT tokens come out of the last."""
    tokens = KEPT + count * 2 * WIDTH
    line = numbers(tokens, count, 50)
    invokes = [f"Load, a, {tokens}, line[0]"]
    for at in range(count):
        invokes += kernel(at, tokens - at * 2 * WIDTH)
    invokes.append(f"Store, line[{count}], b, {KEPT}")
    streams = [f"tapa::streams<int, {count + 1}> line"]
    streams += [f"tapa::streams<int, 4> on_{at}" for at in range(count)] + [f"tapa::streams<int, 5, {2 * WIDTH + 8}> tap_{at}" for at in range(count)]
    data = {"memories": {"a": line, "b": [0] * KEPT}}
    wanted = line
    for _ in range(count):
        scaled = (1, 1, 4, 1, 1)
        wanted = [signed(sum(times * wanted[at + tap] for tap, times in zip(TAPS, scaled))) for at in range(len(wanted) - 2 * WIDTH)]
    return Design(TASKS, "tapa::mmap<const int> a, tapa::mmap<int> b", streams, invokes, data, {"b": wanted})
