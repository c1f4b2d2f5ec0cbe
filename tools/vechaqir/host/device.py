"""Device files: the grid of slots on which `tapa plan` places tasks (docs/DEVICE.md), of version 1 and 2.

A resource amount is a whole number; amounts stand in lists in the order of RESOURCES. A slot is named by its row and column, both from 0, or by
its number, row by row.
"""
from __future__ import annotations

import copy
import json
from dataclasses import dataclass, field
from pathlib import Path
from typing import Any, Dict, List, Mapping, Optional, Sequence, Tuple, Union

RESOURCES = ("LUT", "FF", "BRAM", "DSP", "URAM")
# The registers of a border, and how full a slot may be in percent, where the file does not say it.
LEVELS, PERCENT = 2, 70
# More than any amount of a device file, which is below 2^32.
LARGEST = 2**32 - 1

Amounts = List[int]
SlotPlace = Tuple[int, int]


class DeviceFault(ValueError):
    """A text that describes no device; its words say why, after the name of the file if it was read from one. `tapa plan` tells the exact fault by its code."""


@dataclass
class Device:
    """The slots of a chip, with what a designer fixed in its file.

    `slots` are the capacities row by row; `levels_rows[i]` are the registers of the border between the rows i and i + 1, `levels_cols` likewise;
    `tasks` are the uses of an instance of a leaf task that replace its estimate; `original` is the JSON object that was read.
    """

    rows: int
    cols: int
    slots: List[Amounts]
    version: int = 1
    levels_rows: List[int] = field(default_factory=list)
    levels_cols: List[int] = field(default_factory=list)
    percent: int = PERCENT
    tasks: Dict[str, Amounts] = field(default_factory=dict)
    pins: Dict[str, SlotPlace] = field(default_factory=dict)
    forbidden: List[SlotPlace] = field(default_factory=list)
    original: Dict[str, Any] = field(default_factory=dict)

    def place(self, number: int) -> SlotPlace:
        """The row and column of the slot of a number."""
        return number // self.cols, number % self.cols

    def number(self, place: SlotPlace) -> int:
        """The number of the slot at a row and column."""
        return place[0] * self.cols + place[1]

    def is_forbidden(self, number: int) -> bool:
        return self.place(number) in self.forbidden

    def room(self, number: int) -> Amounts:
        """What tasks may use of a slot: whole units within `percent` of its capacity, and nothing of a forbidden slot."""
        return [0] * len(RESOURCES) if self.is_forbidden(number) else [has * self.percent // 100 for has in self.slots[number]]

    def distance(self, one: int, other: int) -> int:
        """The borders that a wire between two slots crosses."""
        (row, col), (to_row, to_col) = self.place(one), self.place(other)
        return abs(row - to_row) + abs(col - to_col)

    def latency(self, one: int, other: int) -> int:
        """The registers that a wire between two slots takes at the borders that it crosses."""
        (row, col), (to_row, to_col) = self.place(one), self.place(other)
        rows, cols = sorted((row, to_row)), sorted((col, to_col))
        return sum(self.levels_rows[rows[0]:rows[1]]) + sum(self.levels_cols[cols[0]:cols[1]])

    def text(self, pins: Optional[Mapping[str, SlotPlace]] = None) -> str:
        """The device file, with `pins` in place of its own where they are given."""
        given: Dict[str, Any] = copy.deepcopy(self.original) if self.original else self._object()
        kept = self.pins if pins is None else pins
        if kept or "pins" in given:
            given["pins"] = {label: list(place) for label, place in kept.items()}
        return "{\n" + ",\n".join(f"  {json.dumps(key)}: {_laid_out(value)}" for key, value in given.items()) + "\n}\n"

    def _object(self) -> Dict[str, Any]:
        """The JSON object of a device that was not read from a file."""
        slots = [_named(five) for five in self.slots]
        given: Dict[str, Any] = {"version": self.version, "rows": self.rows, "cols": self.cols, "slots": slots}
        if self.version == 1:
            given["levels"] = (self.levels_rows + self.levels_cols + [LEVELS])[0]
        else:
            given.update(levels_rows=self.levels_rows, levels_cols=self.levels_cols)
            given["forbidden"] = [list(place) for place in self.forbidden]
        given["percent"] = self.percent
        given["tasks"] = {task: _named(five) for task, five in self.tasks.items()}
        return given


def _named(five: Amounts) -> Dict[str, int]:
    return {resource: amount for resource, amount in zip(RESOURCES, five) if amount}


def _laid_out(value: Any) -> str:
    """A value of the file's object: each slot, task or pin on a line of its own."""
    if isinstance(value, dict) and value:
        return "{\n" + ",\n".join(f"    {json.dumps(key)}: {json.dumps(part)}" for key, part in value.items()) + "\n  }"
    if isinstance(value, list) and value and isinstance(value[0], dict):
        return "[\n" + ",\n".join(f"    {json.dumps(part)}" for part in value) + "\n  ]"
    return json.dumps(value)


def _whole(given: Any, what: str) -> int:
    """A whole number of a file, which is not below 0."""
    if type(given) is not int or given < 0:
        raise DeviceFault(f"{what} is no whole number")
    return given


def _list(given: Mapping[str, Any], key: str, default: Sequence[Any] = ()) -> Sequence[Any]:
    found = given.get(key, default)
    if not isinstance(found, (list, tuple)):
        raise DeviceFault(f"`{key}` is no list")
    return found


def _object_at(given: Mapping[str, Any], key: str) -> Mapping[str, Any]:
    found = given.get(key, {})
    if not isinstance(found, dict):
        raise DeviceFault(f"`{key}` is no JSON object")
    return found


def _amounts(given: Any) -> Amounts:
    """What a JSON object names of each resource, 0 where it names none."""
    if not isinstance(given, dict):
        raise DeviceFault("the resources of a slot or a task are no JSON object")
    return [_whole(given.get(resource, 0), resource) for resource in RESOURCES]


def parse(text: Union[str, bytes]) -> Device:
    """The device of a file's text. DeviceFault where it has not the shape of one; what `tapa plan` takes is read as it reads it."""
    try:
        given = json.loads(text if isinstance(text, str) else text.decode("utf-8"))
    except RecursionError:
        raise DeviceFault("its JSON is nested too deep") from None
    except UnicodeDecodeError as fault:
        raise DeviceFault(f"byte {fault.start} is no UTF-8") from None
    except json.JSONDecodeError as fault:
        raise DeviceFault(f"no JSON from line {fault.lineno}, column {fault.colno} on") from None
    except ValueError:
        raise DeviceFault("a number has too many digits") from None
    return _device(given)


def _device(given: Any) -> Device:
    if not isinstance(given, dict):
        raise DeviceFault("it is no JSON object")
    missing = [key for key in ("rows", "cols", "slots") if key not in given]
    if missing:
        raise DeviceFault(f"the key `{missing[0]}` is missing")
    slots = [_amounts(slot) for slot in _list(given, "slots")]
    rows, cols = _whole(given["rows"], "`rows`"), _whole(given["cols"], "`cols`")
    if rows < 1 or cols < 1 or len(slots) != rows * cols:
        raise DeviceFault(f"{len(slots)} slots are not {rows} rows by {cols} columns")
    return Device(
        rows,
        cols,
        slots,
        _whole(given.get("version", 1), "`version`"),
        levels_rows=_levels(given, "levels_rows", rows - 1),
        levels_cols=_levels(given, "levels_cols", cols - 1),
        percent=_whole(given.get("percent", PERCENT), "`percent`"),
        tasks={task: _amounts(uses) for task, uses in _object_at(given, "tasks").items()},
        pins={label: _slot_place(place) for label, place in _object_at(given, "pins").items()},
        forbidden=[_slot_place(place) for place in _list(given, "forbidden")],
        original=given,
    )


def _levels(given: Mapping[str, Any], key: str, borders: int) -> List[int]:
    """The registers of a wire at each border between two rows or two columns."""
    each = _whole(given.get("levels", LEVELS), "`levels`")
    found = [_whole(levels, f"a part of `{key}`") for levels in _list(given, key, [each] * borders)]
    if len(found) != borders:
        raise DeviceFault(f"`{key}` has {len(found)} numbers, and there are {borders} such borders")
    return found


def _slot_place(given: Any) -> SlotPlace:
    if not isinstance(given, list) or len(given) != 2:
        raise DeviceFault("the place of a slot is no list of a row and a column")
    return _whole(given[0], "the row of a slot"), _whole(given[1], "the column of a slot")


def read(path: str) -> Device:
    """The device of a file. OSError where it cannot be read, DeviceFault where it describes no device."""
    try:
        return parse(Path(path).read_bytes())
    except DeviceFault as why:
        raise DeviceFault(f"{path}: {why}") from None


def one_slot(tasks: Optional[Mapping[str, Amounts]] = None) -> Device:
    """A device of one slot that holds all that there can be; its plan shows what all instances use together."""
    kept = {task: list(five) for task, five in (tasks or {}).items()}
    return Device(1, 1, [[LARGEST] * len(RESOURCES)], percent=100, tasks=kept)
