"""Explanations for the exceptions of the Python module, whose data and devices are arguments and no files."""
from typing import List, Optional

from ..host.results import Call
from .command import Command
from .explainer import Explainer

GIVEN = "/dev/stdin"
FRONT = "      = "


def explainer_of(call: Optional[Call]) -> Explainer:
    command = Command()
    if call:
        command.name, command.source, command.top, command.data, command.device = "run", call.source, call.top, GIVEN, call.device
    return Explainer(command, given={GIVEN: call.given} if call else {}, is_module=True)


def done(call: Call) -> List[str]:
    """What is said after a run that is done."""
    return [line[len(FRONT):] for line in explainer_of(call).ended(0)]


def explained(lines: List[str], call: Optional[Call]) -> List[str]:
    """The messages of a call, each with its explanation."""
    explainer = explainer_of(call)
    return [it for line in lines for it in (line, *explainer.safely(line))] + explainer.ended()
