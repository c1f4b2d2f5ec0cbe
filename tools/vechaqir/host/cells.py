"""Memories as a host gives them: lists, `array.array` and arrays of numpy, taken row by row, and changed in place."""
from typing import Any, List, Sequence, Union

from ..language.kinds import Kind

# A list or another sequence of whole numbers, or an array of numpy of any shape.
Cells = Union[Sequence[int], Any]


def whole(number: Any, name: str) -> int:
    """A whole number of Python or numpy. TypeError names the argument that is none."""
    try:
        return number if type(number) is int else int(number.__index__())
    except (AttributeError, TypeError):
        raise TypeError(f"{name} is {number!r:.60}, and has to be a whole number") from None


def taken(cells: Cells, name: str) -> List[int]:
    """The cells as a list, an array of numpy row by row. TypeError names the argument that has something else."""
    try:
        numbers = cells.reshape(-1).tolist() if hasattr(cells, "reshape") else list(cells)
    except TypeError:
        raise TypeError(f"{name} is {cells!r:.60}, and has to be a list or an array of whole numbers") from None
    return [number if type(number) is int else whole(number, f"{name}[{at}]") for at, number in enumerate(numbers)]


def give(cells: Any, numbers: Sequence[int]) -> None:
    """Puts numbers into the cells in place. An array of unsigned numbers gets the bits of those below 0. TypeError where the cells cannot be changed."""
    if hasattr(cells, "reshape"):
        bits = 8 * cells.dtype.itemsize
        cells.flat = [number & (1 << bits) - 1 for number in numbers] if cells.dtype.kind == "u" else list(numbers)
        return
    if not hasattr(cells, "__setitem__"):
        raise TypeError(f"a {type(cells).__name__} cannot be changed in place: give a list or an array")
    for at, number in enumerate(numbers):
        cells[at] = number


def array(numbers: Sequence[int], kind: Kind) -> Any:
    """An array of numpy with these numbers, whose type is that of the kind: `int32` for `int`. ImportError where numpy is not there."""
    import numpy

    name = "bool" if kind.bits == 1 else f"{'' if kind.signed else 'u'}int{kind.bits}"
    return numpy.array(numbers, dtype=name)
