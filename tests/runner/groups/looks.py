"""The page of `tools/look.py` for each example, for nested tasks and for 512 tasks, in Chromium if it is installed: it draws its data, and no text is over another one or under an
arrow. It loads quickly, follows clicks and keys, and takes less than two seconds of CPU time. The widths are 1,400 and 1,920 pixels."""
import contextlib
import json
import os
import re
from unittest import mock

from runner import browser

from runner.groups import networks
from runner.trial import first_words, read, sources

# The most bytes of a page, and the most seconds of a processor until it is shown.
MOST_BYTES, MOST_SECONDS = 16_777_216, 2
LAYERS = 126

COUNTS, OVERLAPS, CLICK = (read(f"tests/runner/{name}.js") for name in ("counts", "overlaps", "click"))
# How a page is shown when its overlaps are looked for, each after the one before.
STATES = {
    "as it opens": "", "unfolded": "showView('whole')", "dark, with a task selected": "changeTheme(); choose(D.tasks[D.tasks.length >> 1].label)",
    "with its network at full size": "byId('detail').style.display = 'none'; const view = views[shownView], it = byId('graph').style; it.width = `${view.width}px`; it.height = `${view.height}px`; view.fit();",
}


# Forty pairs of tasks, and what is shown of their network.
TALL = """void A(tapa::ostream<int>& q) { q.write(1); }
void B(tapa::istream<int>& q) { q.read(); }
void Tall() { tapa::streams<int, 40> s; tapa::task().invoke<tapa::join, 40>(A, s).invoke<tapa::join, 40>(B, s); }
"""
VIEW = """const {x, y, width, height} = views[shownView].svg.viewBox.baseVal, pane = byId('graph');
return {x, y, width, height, scale: Math.min(pane.clientWidth / width, pane.clientHeight / height)};"""


def nested():
    """A program of 80 tasks, 72 of them in nine upper-level tasks with two in each, and a device with a place for each task."""
    ends = [f"{letter}{place}" for place in range(4) for letter in "ab"]
    inner = [f".invoke(Mid, x_a{at}, x_b{(at + 3) % 4}, y_a{at}, y_b{at})" for at in range(4)]
    ports = ", ".join([f"tapa::{kind}<uint64_t>& {front}_{end}" for kind, front in (("istream", "x"), ("ostream", "y")) for end in ends])
    passed = [", ".join(f"{front}_{end}" for end in ends) for front in ("x", "middle_of_the_stage", "y")]
    streams = [f"tapa::stream<uint64_t> s{at}_{end};" for at in range(10) for end in ends]
    chain = [f".invoke(Src, s0_a{at}, s0_b{at})" for at in range(4)]
    chain += [f".invoke(TwoLayers, {', '.join(f's{at + more}_{end}' for more in (0, 1) for end in ends)})" for at in range(9)]
    chain += [f".invoke(Dst, s9_a{at}, s9_b{(at + 3) % 4})" for at in range(4)]
    stage = "".join(f"tapa::stream<uint64_t> middle_of_the_stage_{end}; " for end in ends) + f"tapa::task().invoke(Layer, {passed[0]}, {passed[1]}).invoke(Layer, {passed[1]}, {passed[2]});"
    return f"{networks.TASKS}void Layer({ports}) {{ tapa::task(){''.join(inner)}; }}\nvoid TwoLayers({ports}) {{ {stage} }}\nvoid Nested() {{ {' '.join(streams)} tapa::task(){''.join(chain)}; }}\n"


def pinned(stages=9):
    """The device U280 with a place for each of these tasks: two stages in each slot, from the upper left one on."""
    device = json.loads(read("examples/devices/u280.json"))
    pins = {f"Src${at}": [0, 0] for at in range(4)}
    pins.update({f"TwoLayers${at + 4}$Layer${layer}$Mid${place}": [at // 4, at // 2 % 2] for at in range(stages) for layer in range(2) for place in range(4)})
    return json.dumps({**device, "pins": {**pins, **{f"Dst${stages + 4 + at}": [2, 0] for at in range(4)}}})


@contextlib.contextmanager
def without_graphviz(trial):
    """The first `dot` on the PATH is one that fails."""
    os.chmod(trial.put("dot", "#!/bin/sh\nexit 1\n"), 0o755)
    with mock.patch.dict(os.environ, PATH=f"{trial.folder.name}:{os.environ['PATH']}"):
        yield


def try_overlaps(trial, shown, name, path):
    for width in (1400, 1920):
        shown.resize(width)
        shown.open(path)
        for state, script in STATES.items():
            if state == "unfolded" and not shown.run("return !!D.folded"):
                continue
            shown.run(script)
            found = shown.run(OVERLAPS)
            trial.check(f"the page of {name} {state}, {width} pixels wide, has no overlap", found["count"] == 0 and found["texts"] > 100, "".join(f"   {it}\n" for it in found["found"][:10]))
    shown.resize(1400)


def page_of(trial, name, words):
    status, page, err = trial.tool("look.py", *words, "--no-tries")
    trial.check(f"look.py of {name}", status == 0, err)
    data = re.search(r'<script type="application/json" id="data">(.*?)</script>', page, re.S)
    whole = status == 0 and data is not None and "http" not in page.replace("http://www.w3.org/2000/svg", "") and len(page) <= MOST_BYTES
    trial.check(f"the page of {name} is whole, small, and asks for nothing else", whole, f"   {len(page)} bytes")
    return trial.put("page.html", page), json.loads(data[1]) if data else {}


def try_page(trial, shown, name, words):
    """A page in the browser beside its data."""
    path, data = page_of(trial, name, words)
    if not data or shown is None:
        return
    shown.begin_counting()
    trial.check_equal(f"complaints of the page of {name}", shown.open(path), [])
    seconds = shown.seconds()
    has = shown.run(COUNTS)
    kinds = [box[0] for box in data["graph"]["boxes"]]
    wanted = {
        "ready": "yes", "title": data["top"], "tasks": len(data["tasks"]), "wires": len(data["streams"]), "uppers": kinds.count("upper"), "memories": kinds.count("memory"),
        "circle": len(data["circle"]), "lines": len(data["lines"]), "report": len(data["run"]["rows"]),
        "slots": len(data["plan"]["slots"]) if data["plan"] else 0, "chips": len(data["plan"]["tasks"]) if data["plan"] else 0,
    }
    trial.check_equal(f"the page of {name} draws what its data say", {key: has[key] for key in wanted}, wanted)
    trial.check(f"the page of {name} shows time, the end and the report", has["colours"] > 5 and str(data["cycles"] if data["done"] else "") in has["facts"] and data["run"]["end"] in has["told"], f"   {has}")
    trial.check(f"the page of {name} is quick", seconds < MOST_SECONDS, f"   {seconds} seconds")
    try_click(trial, shown, name, data)
    try_overlaps(trial, shown, name, path)
    return has


def try_click(trial, shown, name, data):
    """A click on a task shows its streams."""
    task = data["tasks"][-1]["label"]
    own = [it["name"] for it in data["streams"] if task in (it["writer"], it["reader"])]
    trial.check_that(f"a click on {task} of {name}", shown.run(CLICK % task), lambda text, near, is_chosen: is_chosen and near == len(own) and all(it in text for it in [task, *own]))


def try_keys(trial, shown):
    """Keys go to sections, zoom, choose and change the colours."""
    path, _ = page_of(trial, "vector_add", ["examples/vector_add.cpp", "VecAdd", "examples/vector_add.json", "--device", "examples/devices/two_slots.json"])
    shown.open(path)
    shown.run("const [name, facts] = document.querySelectorAll('#graph .named text'); facts.setAttribute('y', name.getAttribute('y'))")
    shown.run("const it = document.querySelector('#graph .whole .task text'); document.querySelector('#graph .whole .wire path.line').setAttribute('d', `M0 ${it.getAttribute('y') - 3} H2000`)")
    found = " ".join(shown.run(OVERLAPS)["found"])
    trial.check("a text over another one and one under an arrow are found", "lies over" in found and "lies under the arrow" in found, f"   {found}")
    shown.open(path)
    shown.press("4")
    trial.check_equal("a key goes to a section", shown.run("return document.activeElement.id"), "source")
    before = shown.run("return [time.count, document.documentElement.classList.contains('dark')]")
    shown.press("++t")
    after = shown.run("return [time.count, document.documentElement.classList.contains('dark')]")
    trial.check("keys zoom and change the colours", after[0] < before[0] and after[1] != before[1], f"   {before} {after}")
    shown.run("document.querySelector('#graph .whole .task[data-name=\"Add$2\"]').focus()")
    shown.press("\ue007")
    trial.check("Enter chooses a task", "task Add, line 7" in shown.run("return document.querySelector('#detail').textContent"))
    shown.press("\ue00c")
    trial.check_equal("Escape chooses none", shown.run("return chosen"), None)


def try_tall(trial, shown):
    """A network of many tasks one below the other opens at its upper end, with labels that can be read; the button shows all of it."""
    path, data = page_of(trial, "a tall network", [trial.put("tall.cpp", TALL), "Tall"])
    graph = data.get("graph", {"width": 0, "height": 0})
    trial.check("a tall network is tall", graph["height"] > 3 * graph["width"] > 0, f"   {graph['width']} by {graph['height']}")
    if shown is None:
        return
    shown.open(path)
    opened = shown.run(VIEW)
    trial.check("a tall network opens at its upper end, in its whole width", opened["y"] == 0 and opened["x"] <= 0 and opened["width"] >= graph["width"] and opened["scale"] >= 0.5, f"   {opened}")
    shown.run("byId('fit').click()")
    whole = shown.run(VIEW)
    trial.check("the button shows all of a tall network", whole["height"] >= graph["height"] and whole["scale"] < 0.5, f"   {whole}")


def try_pages(trial, shown):
    for path in sources("examples"):
        device = "two_dies" if path == "examples/two_ways.cpp" else "u280"
        has = try_page(trial, shown, os.path.basename(path), [*first_words(path), "--device", f"examples/devices/{device}.json"])
        if has and path == "examples/too_shallow.cpp":
            trial.check("a deadlock is shown", "A deadlock: Producer$0" in has["bound"] and has["circle"] == 2, f"   {has['bound']}")
    words = [trial.put("nested.cpp", nested()), "Nested", "--device", trial.put("pinned.json", pinned())]
    try_page(trial, shown, "nested tasks", words)
    with without_graphviz(trial):
        try_page(trial, shown, "nested tasks without Graphviz", words)
    trial.put("gen.cpp", networks.network(LAYERS))
    try_page(trial, shown, "a network of 512 tasks", [os.path.join(trial.folder.name, "gen.cpp"), "Gen"])


def try_all(trial):
    if browser.is_there():
        with browser.Browser() as shown:
            try_pages(trial, shown)
            try_tall(trial, shown)
            try_keys(trial, shown)
    else:
        trial.note("there is no Chromium here, so pages were made and not shown")
        try_pages(trial, None)
        try_tall(trial, None)
