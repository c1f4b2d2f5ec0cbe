"""A design in parts: its tasks, its streams and its invokes, whose order may be changed without changing what is computed."""
import random
from dataclasses import dataclass
from pathlib import Path
from string import Template


@dataclass
class Design:
    """A source in parts, its data, and the cells that its memories must have in the end."""

    tasks: str
    parameters: str
    streams: list
    invokes: list
    data: dict
    wanted: dict
    top: str = "Top"

    def source(self, order=0):
        """The source's text; order 0 has the invokes as they come, each other one mixes them by its number."""
        invokes = list(self.invokes)
        if order:
            random.Random(order).shuffle(invokes)
        lines = [f"  {stream};" for stream in self.streams] + ["  tapa::task()"] + [f"    .invoke({invoke})" for invoke in invokes]
        return f"#include <tapa.h>\n{self.tasks}void {self.top}({self.parameters}) {{\n" + "\n".join(lines) + ";\n}\n"


def tasks(name, **words):
    """The tasks of a family, in a file beside it, with these words in their places."""
    return Template(Path(__file__).with_name(f"{name}.cpp").read_text(encoding="utf-8")).substitute(words)


def numbers(count, seed, below):
    """So many numbers at random, the same for a seed."""
    some = random.Random(seed)
    return [some.randrange(below) for _ in range(count)]


def signed(value):
    """A number as the 32 bits of an `int`."""
    return (value + 2**31) % 2**32 - 2**31
