"""A waveform by the source's names: of each instance its line, its act and its variables, cycle by cycle, made of a dump of the circuit and of the source.

It is a value change dump that GTKWave reads (`string` variables are GTKWave's own kind). What a dump of `tapa cosim --vcd` does not have, the inside of tasks, comes from
running each task's machine beside it (`run`).
"""
from __future__ import annotations

from typing import Callable, Dict, Iterator, List, Tuple

from .run import Follower, Run


class _Variable:
    """A variable of the new dump: its type, its bits, its name, and what it shows of a follower."""

    def __init__(self, kind: str, bits: int, name: str, shows: Callable[[Follower], "int | str"]) -> None:
        self.kind, self.bits, self.name, self.shows = kind, bits, name, shows

    def change(self, value: "int | str", key: str) -> str:
        if isinstance(value, str):
            return f"s{value} {key}"
        return f"{value}{key}" if self.bits == 1 else f"b{value:b} {key}"


def dump(run: Run) -> Iterator[str]:
    """The lines of the new dump. A unit of time is a cycle. Raises NotOfThisSource where the circuit's dump does not go with the source."""
    shown = [(follower, list(_variables(follower))) for follower in run.followers]
    keys: Dict[Tuple[int, int], str] = {}
    yield "$timescale 1 ns $end"
    yield f"$scope module {run.network.top} $end"
    for place, (follower, variables) in enumerate(shown):
        yield f"$scope module {follower.instance.label} $end"
        for number, variable in enumerate(variables):
            keys[place, number] = _key(len(keys))
            yield f"$var {variable.kind} {variable.bits} {keys[place, number]} {variable.name} $end"
        yield "$upscope $end"
    yield "$upscope $end"
    yield "$enddefinitions $end"
    last: Dict[str, "int | str"] = {}
    for cycle, _ in run.cycles():
        yield f"#{cycle}"
        for place, (follower, variables) in enumerate(shown):
            for number, variable in enumerate(variables):
                key, value = keys[place, number], variable.shows(follower)
                if last.get(key) != value:
                    last[key] = value
                    yield variable.change(value, key)


def _variables(follower: Follower) -> Iterator[_Variable]:
    machine = follower.machine
    lines = [machine.place(it).line for it in machine.states]
    says = [machine.says(it).replace(" ", "_") for it in machine.states]
    yield _Variable("integer", 32, "line", lambda it: lines[it.at])
    yield _Variable("string", 1, "act", lambda it: says[it.at] if it.status != "ended" else "ended")
    yield _Variable("wire", 1, "waits", lambda it: int(it.status in ("waits", "bad token")))
    names: List[str] = []
    for register in machine.registers:
        if register.role in ("parameter", "variable"):
            # variables of one name in two blocks are told apart by their lines
            name = register.name if register.name not in names else f"{register.name}@{register.place.line}"
            names.append(register.name)
            yield _Variable("wire", register.kind.bits, name, lambda follower: follower.registers[register.number])


def _key(number: int) -> str:
    """The short name of a variable in the dump: digits to base 94, the lowest first."""
    text = ""
    while True:
        number, digit = divmod(number, 94)
        text += chr(33 + digit)
        if number == 0:
            return text
