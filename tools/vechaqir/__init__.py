"""Designs of `tapa` for scripts and tests: `Design(src, top)` is checked, run, built, simulated, planned, and called as a function (docs/PYTHON.md).

The names are read from their modules when they are asked for, so that a script that needs one module does not read all of them.
"""
import importlib
from typing import TYPE_CHECKING, Any

if TYPE_CHECKING:
    from .host.design import Circuit, Design
    from .host.plan import Plan
    from .host.program import NoProgram, Program, find
    from .host.report import EOT, Eot, Token, Waiting
    from .host.results import Failure, NotDone, PastEnd, Refused, Result, Stopped

__all__ = ["Circuit", "Design", "EOT", "Eot", "Failure", "NoProgram", "NotDone", "PastEnd", "Plan", "Program", "Refused", "Result", "Stopped", "Token", "Waiting", "find"]

_HOMES = {
    "host.design": ("Circuit", "Design"),
    "host.plan": ("Plan",),
    "host.program": ("NoProgram", "Program", "find"),
    "host.report": ("EOT", "Eot", "Token", "Waiting"),
    "host.results": ("Failure", "NotDone", "PastEnd", "Refused", "Result", "Stopped"),
}


def __getattr__(name: str) -> Any:
    for home, names in _HOMES.items():
        if name in names:
            return getattr(importlib.import_module(f".{home}", __name__), name)
    raise AttributeError(f"module {__name__!r} has no attribute {name!r}")
