"""The rooms of tools/vechaqir: what each is, and which imports which, as docs/ARCHITECTURE.md draws it."""
import ast
import os
from pathlib import Path

from runner.trial import ROOT, read
from runner.write import lists

PACKAGE = "tools/vechaqir"


def modules():
    """The modules of each room, by the room's name; a module beside the rooms is one by itself."""
    found = {}
    for path in sorted(Path(ROOT, PACKAGE).rglob("*.py")):
        inside = path.relative_to(Path(ROOT, PACKAGE)).with_suffix("").parts
        found.setdefault(inside[0], []).append(str(path.relative_to(ROOT)))
    return found


def imported(path):
    """What a module imports of the package, within functions too: names of rooms, or of modules beside them."""
    depth = path.count("/") - PACKAGE.count("/")
    for node in ast.walk(ast.parse(read(path))):
        if isinstance(node, ast.ImportFrom) and node.level == depth:
            yield from [node.module.split(".")[0]] if node.module else [it.name for it in node.names]


def imports():
    """Of each room the others that its modules import."""
    found = modules()
    return {room: {it for path in paths for it in imported(path) if it in found and it != room} for room, paths in found.items()}


def order(below):
    """The rooms, each behind those that it imports; rooms that import each other in a ring are left out."""
    placed = []
    while True:
        ready = sorted(room for room in below if room not in placed and below[room] <= set(placed))
        if not ready:
            return placed
        placed += ready[:1]


def what_it_is(path):
    return lists.sentence(ast.get_docstring(ast.parse(read(path))))


def first(room):
    """The file that says what a room is."""
    path = f"{PACKAGE}/{room}/__init__.py"
    return path if os.path.exists(os.path.join(ROOT, path)) else f"{PACKAGE}/{room}.py"


def drawing():
    """The rooms from those that import none on, each with those that it imports."""
    below = imports()
    placed = [room for room in order(below) if room != "__init__"]
    lines = [f"{room:9} {'──▶ ' + ', '.join(it for it in placed if it in below[room]) if below[room] else ''}" for room in placed]
    width = max(map(len, lines))
    return "```\n" + "".join(f"{line:{width}}  {what_it_is(first(room))}\n" for room, line in zip(placed, lines)) + "```\n"


LISTS = {"docs/ARCHITECTURE.md": drawing}
