"""Why a data file is refused: the codes J1 to J4 of scalars, memories and lists of waits; and what a file that is no JSON has at its place."""
import re
from typing import List, NamedTuple, Optional

from ..language.network import Network
from ..language.syntax import Parameter
from . import json_places, pages
from .base import Why, article, few, listed
from .json_places import Node, NoJson

GROUPS = ("scalars", "memories", "waits")
# How many bytes of a line are shown before and after the place at which a file stops to be JSON.
BEFORE, BEHIND = 60, 60
PORTS = "each scalar and each memory of the top task is a port of its circuit, and has a value before the run"
WHOLE = "a cell is as many bits as its type has"


class Given(NamedTuple):
    """What is known of refused data: their path and bytes (None if no file was given), the program's network, whether it is a device file, the source's path, and whether they
    are arguments of the Python module and no file."""

    path: str
    data: Optional[bytes]
    network: Optional[Network]
    is_device: bool
    source: str = "F.cpp"
    is_argument: bool = False

    @property
    def page(self) -> str:
        return "docs/DEVICE.md" if self.is_device else "docs/PYTHON.md" if self.is_argument else "docs/DATA.md"

    @property
    def top(self) -> str:
        return f"`{self.network.top}`" if self.network else "the top task"

    def template(self) -> str:
        return f"`{pages.tool('template.py')} {self.source} {self.network.top if self.network else 'TOP'} > F.json`, which writes a data file to fill in"


def located(given: Given, node: Optional[Node]) -> str:
    if node is None or given.data is None or given.is_argument:
        return ""
    line, column = json_places.place(given.data, node.offset)
    return f" (line {line}, column {column})"


def tree(given: Given) -> Optional[Node]:
    try:
        return json_places.read(given.data or b"{}")
    except NoJson:
        return None


def no_json(given: Given) -> Optional[Why]:
    """The place at which a file stops to be JSON."""
    data = given.data
    try:
        json_places.read(data or b"")
    except NoJson as fault:
        line, column = json_places.place(data or b"", fault.offset)
        says = [f"line {line}, column {column}: {fault.why}"]
        return Why(says, "write JSON (RFC 8259): keys in `\"`, and a comma only between members", [], given.page, "a data file and a device file are JSON")
    return None


def shown_fault(data: bytes) -> List[str]:
    """The line in which a file stops to be JSON, or the part of a long one around the place, and a line with a caret below the place."""
    try:
        json_places.read(data)
    except NoJson as fault:
        line, _ = json_places.place(data, fault.offset)
        begin = data.rfind(b"\n", 0, fault.offset) + 1
        first = max(begin, fault.offset - BEFORE)
        front, behind = (it.decode("utf-8", "replace").replace("\t", " ") for it in (data[first:fault.offset], data[fault.offset:fault.offset + BEHIND].split(b"\n")[0].rstrip()))
        return [f"{line:5} | {front}{behind}", f"      | {' ' * len(front)}^"] if (front + behind).strip() else []
    return []


def parameter(given: Given, key: str) -> Optional[Parameter]:
    """The parameter of which a key like `scalars.n` speaks."""
    group, _, name = key.partition(".")
    found = (given.network.scalars if group == "scalars" else given.network.memories) if given.network else []
    return next((it for it in found if it.name == name), None)


def needs(given: Given, group: str) -> str:
    """What a group of a data file has to have."""
    found = (given.network.scalars if group == "scalars" else given.network.memories) if given.network else []
    return listed(it.name for it in found)


def node_of(given: Given, key: str) -> Optional[Node]:
    """The value of a key in the file."""
    node = tree(given)
    for part in key.split(".", 1) if key != "." else []:
        node = node.members.get(part) if node else None
    return node


def shape(given: Given, key: str) -> Why:
    """A value that is missing, unknown or of another shape."""
    group, _, name = key.partition(".")
    wanted, node = parameter(given, key), node_of(given, key)
    if given.data is None:
        return none_given(given)
    if key == "." or not name and group in GROUPS:
        return Why([f"{'the file' if key == '.' else f'`{group}`'} is not an object{located(given, node)}"], 'write `{ "n": 1 }`', [], given.page, "values are found by the names of parameters")
    if not name:
        return Why([f"a data file has no `{group}`{located(given, node)}: it has {listed(GROUPS)}"], f"write one of {listed(GROUPS)}", [], given.page, "a member that nothing reads would be a mistake that nobody sees")
    what = "a number" if group == "scalars" else "a list of 0 and 1" if group == "waits" else "a list of numbers, its first cells"
    if node is None:
        return without(given, group, name, what)
    if group == "waits" and not wanted or group != "waits" and given.network and not wanted:
        sort = "scalar" if group == "scalars" else "memory"
        return Why([f"{given.top} has no {sort} `{name}`{located(given, node)}: its {'scalars' if sort == 'scalar' else 'memories'} are {needs(given, group) or 'none'}"],
                   "write the names of the top task's parameters", [], given.page, "a member that nothing reads would be a mistake that nobody sees")
    return Why([f"`{key}` is {sort_of(node)}{located(given, node)}, and has to be {what}" + inner(given, node)], f"write {what}", [], given.page, PORTS if group != "waits" else "")


def none_given(given: Given) -> Why:
    """Data for parameters of which none is given."""
    if given.network is None:
        return Why(["the design has parameters, and no data file is given"], "give a data file as the command's next word", [], given.page, PORTS)
    wanted = " and ".join(f"{it} {needs(given, it)}" for it in GROUPS[:2] if needs(given, it))
    return Why([f"{given.top} has parameters, and no data file is given: it needs {wanted}"], f"give one as the next word; call {given.template()}", [], given.page, PORTS)


def without(given: Given, group: str, name: str, what: str) -> Why:
    """A scalar or a memory of the top task that the data have not."""
    wanted = parameter(given, f"{group}.{name}")
    kind = f", {article(wanted.kind.word)}" if wanted else ""
    cells = "0" if group == "scalars" else "[0, 0, 0, 0]"
    says = [f"`{group}` has no `{name}`{kind}: {given.top} needs {what} for it", *strangers(given, group)]
    if given.is_argument:
        return Why(says, f'give `{group}={{"{name}": {cells}, ..}}`', [], given.page, PORTS)
    return Why(says, f'write `"{group}": {{ "{name}": {cells} }}`, or call {given.template()}', [], given.page, PORTS)


def strangers(given: Given, group: str) -> List[str]:
    """The members of the data that nothing reads: of a group, or beside the groups if there is no such group."""
    root = tree(given)
    members = root.members if root else {}
    inside = members[group].members if group in members else {}
    found = {name: it for name, it in inside.items() if parameter(given, f"{group}.{name}") is None} if group in members else {name: it for name, it in members.items() if name not in GROUPS}
    if not found:
        return []
    where = located(given, next(iter(found.values()))) if len(found) == 1 else ""
    return [f"`{group}` has {few(found)}{where}, which {given.top} has not"] if group in members else [f"the file has {few(found)}{where}, which is none of {listed(GROUPS)}"]


def sort_of(node: Node) -> str:
    return {"object": "an object", "list": "a list", "number": "a number", "text": f'the text "{node.text[:40]}"', "bool": f"`{node.text}`", "null": "`null`"}[node.kind]


def inner(given: Given, node: Node) -> str:
    """Of a list the first item that is no number."""
    for at, item in enumerate(node.items):
        if item.kind != "number":
            return f": item {at} is {sort_of(item)}{located(given, item)}"
    return ""


def bounds(wanted: Optional[Parameter], group: str) -> str:
    bits = 1 if group == "waits" else wanted.kind.bits if wanted else 0
    if bits == 1:
        return "0 or 1"
    return f"whole, from {-2 ** (bits - 1):,} to {2 ** bits - 1:,}" if bits else "whole, and of the bits of its type"


def is_right(text: str, bits: int) -> bool:
    if not re.fullmatch(r"-?[0-9]+", text) or text == "-0":
        return False
    number = int(text) if len(text) < 40 else 1 << 100
    least = 0 if bits == 1 else -2 ** (bits - 1)
    return least <= number < 2 ** bits and -2 ** 63 <= number < 2 ** 64


def not_whole(given: Given, key: str) -> Why:
    """A number that is not whole or does not fit its bits."""
    group = key.partition(".")[0]
    wanted, node = parameter(given, key), node_of(given, key)
    bits = 1 if group == "waits" else wanted.kind.bits if wanted else 64
    cells = list(enumerate(node.items)) if node and node.kind == "list" else []
    wrong = next(((at, it) for at, it in cells if it.kind == "number" and not is_right(it.text, bits)), None)
    kind = f" of the type `{wanted.kind.word}`" if wanted and group != "waits" else ""
    says = f"cell {wrong[0]} of `{key}` is {wrong[1].text}{located(given, wrong[1])}" if wrong else f"`{key}` is {node.text[:60] if node else 'a number'}{located(given, node)}"
    return Why([f"{says}: a number{kind} is {bounds(wanted, group)}"], "write a whole number in these bounds, without point and exponent", [], given.page, WHOLE)


def too_many(given: Given, key: str) -> Why:
    node = node_of(given, key)
    cells = len(node.items) if node else 0
    return Why([f"`{key}` has {cells:,} cells: a memory has at most 65,536, and all together have at most 1,048,576"], "give fewer cells: a smaller problem, or its data in parts", [], given.page, "a run holds all memories at once")


def why(code: str, key: str, given: Given) -> Optional[Why]:
    """Why a data file is refused."""
    found = {"J2": shape, "J3": not_whole, "J4": too_many}
    return no_json(given) if code == "J1" else found[code](given, key) if code in found else None
