"""Why a device file is refused: the codes J2 and J3, and K1 to K4."""
from typing import Optional

from .base import Why, few, listed
from .data import Given, located, no_json, node_of, tree

DEVICE_KEYS = ("version", "rows", "cols", "slots", "levels", "levels_rows", "levels_cols", "percent", "tasks", "pins", "forbidden")
RESOURCES = ("LUT", "FF", "BRAM", "DSP", "URAM")
AMOUNTS = "an object from `LUT`, `FF`, `BRAM`, `DSP` and `URAM` to numbers"
SHAPES = {"rows": "a number", "cols": "a number", "percent": "a number", "version": "a number", "levels": "a number", "slots": f"a list with {AMOUNTS} for each slot",
          "levels_rows": "a list of rows - 1 numbers", "levels_cols": "a list of columns - 1 numbers", "tasks": f"for each task {AMOUNTS}", "pins": "for each instance `[row, column]`",
          "forbidden": "a list of `[row, column]`"}
GRID = "a device is a grid of slots: 1 to 8 rows and 1 to 4 columns, both counted from 0"
READ = "a member that nothing reads would be a mistake that nobody sees"


def shape(given: Given, key: str) -> Why:
    """A key of a device file that is missing, unknown or of another shape."""
    group, _, name = key.partition(".")
    node = node_of(given, key)
    if key == ".":
        return Why(["the file is not an object"], "write `{ \"rows\": 1, \"cols\": 2, \"slots\": [ .. ] }`", [], given.page, GRID)
    if group not in DEVICE_KEYS:
        return Why([f"a device file has no `{group}`{located(given, node)}"], f"write one of {listed(DEVICE_KEYS)}", [], given.page, READ)
    if node is None:
        return Why([f"`{key}` is missing"], f"write `\"{key}\"`: {SHAPES[group]}", [], given.page, GRID)
    if group in ("levels", "levels_rows", "levels_cols", "forbidden"):
        return Why([f"`{key}` has another shape, or belongs to another version of device files{located(given, node)}"],
                   f"write {SHAPES[group]}: `levels` in version 1, and `levels_rows`, `levels_cols` and `forbidden` in version 2", [], given.page, "each border of the grid has its levels")
    wrong = next((it for slot in node.items for it in slot.members if it not in RESOURCES), None)
    more = f": `{wrong}` is not a resource" if wrong else ""
    instead = SHAPES[group] if not name else AMOUNTS if group == "tasks" else "`[row, column]`"
    return Why([f"`{key}` has another shape{located(given, node)}{more}"], f"write {instead}", [], given.page, "a slot has an amount of each resource, and 0 of one that is not written" if group in ("slots", "tasks") else "")


def out_of_grid(given: Given, key: str) -> Why:
    """The size of the grid, its levels, or a place in it."""
    node = node_of(given, key) or node_of(given, f"pins.{key}")
    if key not in DEVICE_KEYS:
        return Why([f"the pin of `{key}` is outside of the grid{located(given, node)}"], "write `[row, column]` of a slot", [], given.page, GRID)
    if key == "slots":
        root = tree(given)
        sizes = [root.members[it].text for it in ("rows", "cols")] if root and all(it in root.members for it in ("rows", "cols")) else []
        count = len(node.items) if node else 0
        if all(it.isdecimal() for it in sizes) and sizes:
            wanted = int(sizes[0]) * int(sizes[1])
            return Why([f"`slots` has {count} of the {wanted} slots that {sizes[0]} rows times {sizes[1]} columns are{located(given, node)}"], f"write {wanted} slots, row by row, or other `rows` and `cols`", [], given.page, GRID)
    ranges = {"rows": "rows are 1 to 8", "cols": "columns are 1 to 4", "slots": "`slots` has rows times columns entries"}
    return Why([f"`{key}`{located(given, node)}: {ranges.get(key, 'a list of levels has one number for each border, and a place is in the grid')}"], "write a device that is a grid of slots", [], given.page, GRID)


def value(given: Given, key: str, code: str) -> Optional[Why]:
    """A number, a place or a name of a device file that is out of range or unknown."""
    node = node_of(given, key) or node_of(given, f"pins.{key}")
    if code == "J3":
        return Why([f"a number of `{key}` is not whole or out of its range{located(given, node)}"], "write a whole number: `percent` 1 to 100, levels 0 to 16, amounts below 2^32, version 1 or 2", [], given.page)
    if code == "K1":
        return out_of_grid(given, key)
    instances = given.network.instances if given.network else []
    if code == "K2":
        says = [f"the program has no leaf task or instance `{key}`{located(given, node)}"]
        if instances:
            says.append(f"its leaf tasks are {few(sorted({it.task for it in instances}))}; its instances are {few(it.label for it in instances)}")
        return Why(says, "name leaf tasks in `tasks`, and instances in `pins` as `plan` prints them", [], given.page, READ)
    if code == "K3":
        return Why([f"`{key}` is pinned to another slot than an instance of its group{located(given, node)}"], "pin the instances of a group to one slot, or only one of them", [], given.page,
                   "tasks that reach one another along streams share a slot, so that no register is in their loop")
    if code == "K4":
        return Why([f"`{key}` is pinned to a slot that is forbidden{located(given, node)}"], "pin it to another slot, or take this one out of `forbidden`", [], given.page, "no task is placed in a forbidden slot")
    return None


def why(code: str, key: str, given: Given) -> Optional[Why]:
    """Why a device file is refused."""
    return no_json(given) if code == "J1" else shape(given, key) if code == "J2" else value(given, key, code)


def looks_like_device(key: str) -> bool:
    return key.split(".")[0] in DEVICE_KEYS
