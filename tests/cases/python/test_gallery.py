"""Each design of the gallery leaves in its memories what plain Python computes: by `run`, by its circuit, and by its circuit for a device of two dies with
memories that are not always ready; and, where numpy is there, from arrays and for other data than those of its file."""
import os
import random
import unittest

from gallery import DESIGNS, ROOT, data
from vechaqir import Design

try:
    import numpy
except ImportError:
    numpy = None

# Not every example has room in a die of this one, so tasks and streams lie on both.
DEVICE = os.path.join(ROOT, "examples", "devices", "two_halves.json")


def designs():
    for name, (top, computed) in DESIGNS.items():
        yield name, Design(os.path.join(ROOT, "examples", f"{name}.cpp"), top), computed


def parts(design, given):
    """The scalars and the memories of what is given."""
    found = design.run, {it: given[it] for it in given if isinstance(given[it], int)}, {it: given[it] for it in given if not isinstance(given[it], int)}
    return found[1:]


class Gallery(unittest.TestCase):
    def test_run_and_circuit(self):
        chance = random.Random(3)
        for name, design, computed in designs():
            scalars, memories = parts(design, data(name))
            wanted = computed(**data(name))
            ready = {it: [chance.randrange(2) for _ in range(400)] for it in memories}
            far = design.build(device=DEVICE, plan="split")
            for way, result in (("run", design.run(scalars, memories)), ("cosim", design.cosim(scalars, memories)), ("two dies", far.cosim(scalars, memories, ready))):
                with self.subTest(design=name, way=way):
                    self.assertEqual({it: result.memories[it] for it in wanted}, wanted)

    @unittest.skipUnless(numpy, "there is no numpy here")
    def test_arrays(self):
        chance = numpy.random.default_rng(5)
        a, b, c = (chance.integers(-99, 99, (4, 4), dtype="int32") for _ in range(3))
        cannon = Design(os.path.join(ROOT, "examples", "cannon.cpp"), "Cannon")
        for circuit in (None, cannon.build()):
            c[...] = 0
            cannon.kernel(a, b, c, circuit=circuit)
            numpy.testing.assert_array_equal(c, a @ b)
        samples = chance.integers(-2**15, 2**15, 50, dtype="int16")
        filtered = numpy.zeros(50, dtype="int32")
        result = Design(os.path.join(ROOT, "examples", "fir.cpp"), "Fir").kernel(samples, filtered, 50)
        numpy.testing.assert_array_equal(filtered, numpy.convolve(samples.astype("int32"), [-1, 3, 3, -1])[:50])
        numpy.testing.assert_array_equal(result.array("samples"), samples)
        numbers = chance.integers(-2**31, 2**31, (3, 8), dtype="int32")
        ordered = numpy.zeros_like(numbers)
        Design(os.path.join(ROOT, "examples", "bitonic.cpp"), "Bitonic").kernel(numbers, ordered, 3)
        numpy.testing.assert_array_equal(ordered, numpy.sort(numbers, axis=1))
        counted = chance.integers(0, 256, 301, dtype="uint8")
        bins = numpy.zeros(8, dtype="uint32")
        Design(os.path.join(ROOT, "examples", "histogram.cpp"), "Histogram").kernel(counted, bins, 301)
        numpy.testing.assert_array_equal(bins, numpy.histogram(counted, 8, (0, 256))[0])


if __name__ == "__main__":
    unittest.main()
