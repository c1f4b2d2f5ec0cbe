"""Why a source is refused at a place: by the constructs of the table and by the rules' causes."""
from typing import Callable, Dict, List, Optional, Tuple

from .. import tables
from ..language.lexemes import Place
from ..language.matching import View
from ..language.source import Source
from . import grammar, names, network, pages, reasons
from .base import Case, Why

BY_CODE: Dict[str, Callable[[Case], Optional[Why]]] = {
    "C2": names.doubled, "C4": network.one_end, "C5": network.one_end, "C6": names.method, "C7": network.memory, "C8": names.conditional,
    "C9": names.divisor, "C10": network.itself, "C11": network.limit, "C12": network.memory,
}


def cause(case: Case) -> Optional[Why]:
    """Why the source is refused; None where nothing more is found than the rule itself."""
    if case.code == "C1":
        is_top = case.place == Place(1, 1) and (case.top is None or case.top not in case.view.source.tasks)
        return names.unknown_top(case) if is_top else names.unknown(case)
    if case.code == "C3":
        return network.at_invoke(case) or network.at_top(case) or names.wrong_kind(case)
    if case.code in BY_CODE:
        return BY_CODE[case.code](case)
    return grammar.why(case)


def lines_of(why: Why, code: str, ported: str = "F.cpp TOP") -> List[str]:
    """An explanation as lines below a message; `ported` are the words with which the source is ported."""
    reason = why.reason or reasons.of(code)
    lines = [f"      = {it}" for it in why.says] + [f"      = why: {reason}"] * bool(reason)
    lines += [f"      = instead: {why.instead}"] * bool(why.instead)
    lines += ["      = for example:"] * bool(why.example) + [f"      |   {it}" for it in why.example]
    if why.page.startswith("docs/FROM_TAPA.md"):
        lines.append(f"      = to port a whole TAPA source: `{pages.porting()} {ported}`")
    return lines + [f"      = {why.page or f'docs/REFUSALS.md, {code}'}"]


# Of a Verilog text and a dump: what is wrong with the name or the place of the message, and what to write.
OF_TEXTS = {code: (what, instead) for code, what, instead in tables.rows("explain/texts.rows")}


def general(code: str, name: str = "") -> List[str]:
    """What the rule itself says, if no cause is found."""
    if code in OF_TEXTS:
        what, instead = (it.replace("{}", name).replace("{command}", pages.command()) for it in OF_TEXTS[code])
        return lines_of(Why([what], instead, pages.way_round(code)), code)
    lines = [f"      = {it}" for it in pages.reason(code)]
    example = pages.way_round(code)
    lines += ["      = instead, for example:"] * bool(example) + [f"      |   {it}" for it in example]
    return lines + [f"      = docs/REFUSALS.md, {code}"]


def explained(source: Source, place: Place, code: str, text: str, top: Optional[str] = None, written: str = "") -> Tuple[Optional[Why], List[str]]:
    """The explanation of a refusal at a place of a source, and its lines."""
    case = Case(View(source), source.index_at(source.lines.offset(place)), code, text, top, written, place)
    why = cause(case)
    return why, lines_of(why, code, f"{source.path or 'F.cpp'} {top if top in source.tasks else 'TOP'}") if why else general(code)
