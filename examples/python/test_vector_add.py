"""A property of vector_add for any vectors, which hypothesis looks for exceptions of: the sums wrap as those of an `int` do, in the run and in the circuit.

    PYTHONPATH=tools python3 -B -m pytest -p no:cacheprovider examples/python
"""
from hypothesis import given, settings, strategies

from vechaqir import Design

DESIGN = Design("examples/vector_add.cpp", "VecAdd")
CIRCUIT = DESIGN.build(device="examples/devices/two_slots.json")
INT = strategies.integers(-2**31, 2**31 - 1)
PAIRS = strategies.lists(strategies.tuples(INT, INT), max_size=20)


def wrapped(number):
    return (number + 2**31) % 2**32 - 2**31


@settings(max_examples=20, deadline=None, database=None)
@given(PAIRS)
def test_sums(pairs):
    a, b = [x for x, _ in pairs], [y for _, y in pairs]
    for circuit in (None, CIRCUIT):
        c = [0] * len(pairs)
        DESIGN.kernel(a, b, c, len(pairs), circuit=circuit)
        assert c == [wrapped(x + y) for x, y in pairs]
