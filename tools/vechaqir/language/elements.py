"""Which element of an array of streams an invoke gets that names the array alone: of a counted invoke as long as the array the k-th instance the k-th element. Of other invokes TAPA
hands out the elements one after another, to readers and to writers apart, which the language has not."""
from typing import List, NamedTuple, Optional

from .matching import View, matches
from .syntax import Invoke, Task


class Use(NamedTuple):
    """An array of streams as an argument of an invoke, without an index: the lexeme, the array's name and length, the invoke, whether it is counted, and the direction of the
    parameter that gets it, which is empty where it is not known."""

    at: int
    name: str
    length: int
    invoke: Invoke
    is_counted: bool
    direction: str

    @property
    def is_whole(self) -> bool:
        """Whether the parameter is an array itself."""
        return self.direction in ("istreams", "ostreams")


def is_counted(view: View, invoke: Invoke) -> bool:
    opening = view.source.index_at(view.source.lines.offset(invoke.place)) - 1
    return matches(view, "invoke < tapa :: NAME , ANY > @(", opening)


def uses(view: View, task: Task) -> List[Use]:
    """All such uses in a task, in the order of the text."""
    lengths = {it.name: it.count or 0 for it in task.streams if it.is_array}
    found = []
    for invoke in task.invokes:
        called = view.source.tasks.get(invoke.task)
        for number, it in enumerate(invoke.arguments):
            if it.text in lengths:
                direction = called.parameters[number].direction if called and number < len(called.parameters) else ""
                at = view.source.index_at(view.source.lines.offset(it.place))
                found.append(Use(at, it.text, lengths[it.text], invoke, is_counted(view, invoke), direction))
    return found


def use_at(view: View, at: int) -> Optional[Use]:
    """The use at a lexeme, of those that the language has not."""
    task = view.task(at)
    found = [it for it in uses(view, task) if it.at == at and not (it.is_counted and it.invoke.count == it.length) and not it.is_whole] if task else []
    return found[0] if found else None
