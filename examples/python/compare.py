#!/usr/bin/env python3
"""Makes inputs for vector_add, runs it, and compares its outputs. Call it from the top of the repository:

    PYTHONPATH=tools python3 -B examples/python/compare.py
"""
from vechaqir import Design

n = 1024
a = list(range(n))
b = [-2 * it for it in a]
c = [0] * n

design = Design("examples/vector_add.cpp", "VecAdd")
result = design.kernel(a, b, c, n)

assert c == [x + y for x, y in zip(a, b)]
print(f"PASS, {result.ticks} ticks, by the {'proved' if result.proved else 'unproved'} program")
