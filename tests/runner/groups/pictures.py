"""The pictures in docs/ and those that the tools draw of the examples: no label overlaps another or crosses a border, and the pictures in docs/ are what the tools draw."""
import os
import re

from runner.trial import ROOT, first_words, read, sources
from vechaqir.show import svg

TEXT = re.compile(r"<text ([^>]*)>([^<]*)</text>")
RECT = re.compile(r"<rect ([^>]*)/>")
# How much of a size stands over the base line, how much below, and the part of a unit by which two boxes may meet.
OVER, BELOW, MEET = 0.78, 0.22, 0.6


def attributes(words):
    return dict(re.findall(r'([\w-]+)="([^"]*)"', words))


def texts(drawn):
    """Each text with its box: left, top, right, bottom. A size or an anchor that a text has not is the picture's."""
    whole = attributes(re.search(r"<svg ([^>]*)>", drawn)[1])
    for words, shown in TEXT.findall(drawn):
        has = attributes(words)
        shown = shown.replace("&lt;", "<").replace("&gt;", ">").replace("&amp;", "&").replace("&quot;", '"').replace("&#x27;", "'")
        size = float(has.get("font-size", whole.get("font-size", 16)))
        width = svg.text_width(shown, size, has.get("font-weight") == "bold")
        left = float(has["x"]) - width * {"middle": 0.5, "end": 1}.get(has.get("text-anchor"), 0)
        yield shown, (left, float(has["y"]) - OVER * size, left + width, float(has["y"]) + BELOW * size)


def rects(drawn):
    for words in RECT.findall(drawn):
        has = attributes(words)
        x, y = float(has.get("x", 0)), float(has.get("y", 0))
        yield (x, y, x + float(has["width"]), y + float(has["height"]))


def meet(one, other):
    return one[0] + MEET < other[2] and other[0] + MEET < one[2] and one[1] + MEET < other[3] and other[1] + MEET < one[3]


def inside(one, other):
    return other[0] <= one[0] + MEET and one[2] <= other[2] + MEET and other[1] <= one[1] + MEET and one[3] <= other[3] + MEET


def faults(drawn):
    """What is wrong with the labels of a picture, in words."""
    whole = attributes(re.search(r"<svg ([^>]*)>", drawn)[1])
    frame = (0, 0, float(whole["width"]), float(whole["height"]))
    found = list(texts(drawn))
    for at, (shown, box) in enumerate(found):
        if not inside(box, frame):
            yield f"{shown!r} is not in the picture"
        for other, place in found[at + 1:]:
            if meet(box, place):
                yield f"{shown!r} lies over {other!r}"
        for rect in rects(drawn):
            if meet(box, rect) and not inside(box, rect):
                yield f"{shown!r} lies over the border of a box"


def try_labels(trial, name, drawn):
    told = list(faults(drawn))
    trial.check(f"labels of {name}", bool(drawn) and not told, "".join(f"   {line}\n" for line in told[:5]))


def try_finder(trial):
    """The finder of faults finds them."""
    frame = '<svg width="100" height="40">{}</svg>'
    text = '<text x="{}" y="20" font-size="10">{}</text>'
    trial.check_equal("labels apart", list(faults(frame.format(text.format(5, "abc") + text.format(60, "abc")))), [])
    trial.check_equal("labels over each other", list(faults(frame.format(text.format(5, "abc") + text.format(20, "xyz")))), ["'abc' lies over 'xyz'"])
    trial.check_equal("a label out of the picture", list(faults(frame.format(text.format(90, "abc")))), ["'abc' is not in the picture"])
    box = '<rect x="10" y="5" width="15" height="30"/>'
    trial.check_equal("a label out of its box", list(faults(frame.format(box + text.format(12, "abc")))), ["'abc' lies over the border of a box"])


def circuits(trial):
    """Name and text of the circuit of each example, of the features, and of one on two dies."""
    yield from ((os.path.basename(path), trial.run(["build", *first_words(path)[:2]], ROOT).out) for path in sources("examples"))
    yield "features.cpp", trial.run(["build", "tests/cases/circuits/features.cpp", "Top"], ROOT).out
    yield "two_ways.cpp on two dies", trial.run(["build", "examples/two_ways.cpp", "TwoWays", "--device", "examples/devices/two_dies.json"], ROOT).out


def try_labels_of_waves(trial):
    """Nets by their paths, unknown values, and the width of a page."""
    text = trial.put("w.v", trial.run(["build", "examples/vector_add.cpp", "VecAdd"], ROOT).out)
    dump = trial.put("w.vcd", trial.run(["cosim", text, "examples/vector_add.json", "--vcd"], ROOT).out)
    for words in ([], ["--fill"], ["--from", "5", "--to", "9"], ["--nets", "s_a_q_din,t_VecAdd.done"]):
        _, drawn, err = trial.tool("waves.py", dump, *words)
        trial.check(f"the width of waves {words}", 'width="960"' in drawn, err)
        try_labels(trial, f"waves {words}", drawn)
    acts = trial.put("acts.vcd", trial.tool("names.py", "examples/vector_add.cpp", "VecAdd", "--waves", dump)[1])
    drawn = trial.tool("waves.py", acts, "--nets", "Add$2.act")[1]
    trial.check_equal("the acts of a task are drawn as texts", (drawn.count("<title>read a<"), drawn.count("<title>read b<")), (5, 5))
    known = trial.put("x.vcd", "$scope module T $end\n$var wire 1 ! a $end\n$scope module t_A $end\n$var wire 4 \" s $end\n$upscope $end\n$scope module t_B $end\n$var wire 4 # s $end\n$upscope $end\n$upscope $end\n$enddefinitions $end\n#0\nx!\nbx01x \"\nb11 #\n#1\n1!\n#2\nb101 \"\n#3\n0!\n")
    long = trial.put("l.vcd", f"$scope module T $end\n$var wire 1 ! {'a' * 300_000} $end\n$upscope $end\n$enddefinitions $end\n#0\n0!\n")
    status, drawn, _ = trial.tool("waves.py", long)
    trial.check("a name of 300,000 characters is cut", status == 0 and ">..aaa" in drawn and len(drawn) < 3_000, f"   {status} {len(drawn)}")
    _, drawn, err = trial.tool("waves.py", known)
    trial.check("unknown values are marked, and nets of one name told apart", drawn.count('fill-opacity="0.18"') == 2 and all(f">{name}<" in drawn for name in ("a", "t_A.s", "t_B.s", "3", "5")), drawn + err)
    trial.check("a name that two nets have", "2 nets are named s: T.t_A.s, T.t_B.s" in trial.tool("waves.py", known, "--nets", "s")[2])
    jump = trial.put("j.vcd", "$scope module T $end\n$var wire 1 ! a $end\n$upscope $end\n$enddefinitions $end\n#0\n0!\n#18446744073709551617\n")
    for words, status in ((["--help"], 0), ([], 2), ([jump], 1), ([known, "--from", "x"], 2), (["none.vcd"], 1), (["README.md"], 1), ([known, "--from", "9"], 1)):
        trial.check_that(f"waves.py {' '.join(words)}", trial.tool("waves.py", *words), lambda *ran: ran[0] == status and "Traceback" not in ran[2])


def try_floorplan(trial):
    """The pictures in docs are what the tool draws of the plans that README.md and docs/FLOORPLAN.md show."""
    for picture, source, top, device in (("plan", "vector_add", "VecAdd", "two_slots"), ("two_dies", "two_ways", "TwoWays", "two_dies")):
        device = f"examples/devices/{device}.json"
        said = trial.run(["plan", f"examples/{source}.cpp", top, device], ROOT)
        _, drawn, err = trial.tool("floorplan.py", trial.put("p.plan", said.out), device, f"examples/{source}.cpp", top)
        trial.check(f"docs/{picture}.svg is drawn by floorplan.py", drawn == read(f"docs/{picture}.svg") and drawn.count("<rect") >= 6, f"   {err}")


def try_graph(trial):
    """The picture of README.md is what graph.py draws, and each example's circuit has a box for each task and an arrow for each stream."""
    for source in sources("examples"):
        name, top = os.path.basename(source), first_words(source)[1]
        text = trial.run(["build", source, top], ROOT).out.decode()
        _, drawn, err = trial.tool("graph.py", trial.put("g.v", text))
        joined = [len(re.findall(rf"^  {module}[\w$]+ {front}_[\w$]+ \(", text, re.M)) for module, front in (("t_", "t"), ("channel_", "c"))]
        boxes = [len(re.findall(r'<rect [^>]*rx="4"', drawn)), drawn.count("marker-end=")]
        trial.check(f"graph.py draws {name}", boxes == joined and joined[0] > 0, f"   {boxes} for {joined} {err}")
        if name == "vector_add.cpp":
            trial.check("docs/vector_add.svg is drawn by graph.py", drawn == read("docs/vector_add.svg"))
        if name == "too_shallow.cpp":
            told = trial.put("g.told", trial.run(["run", source, top], ROOT).err)
            drawn = trial.tool("graph.py", trial.put("g.v", text), told)[1]
            trial.check("docs/deadlock.svg is drawn by graph.py", drawn == read("docs/deadlock.svg") and "Producer$0 waits to write it" in drawn)


# A stream that takes two tokens in the cycles 1 and 2, and gives one in cycle 3.
DUMP = read("tests/cases/files/stream.vcd")


def try_waves(trial):
    """Bits are lines, words are lozenges with their numbers, and a stream is as full as the dump says."""
    dump = trial.put("d.vcd", DUMP)
    _, drawn, err = trial.tool("waves.py", dump)
    trial.check_equal("waves.py draws a line a bit and a lozenge a value", (drawn.count("<polyline"), drawn.count("<polygon"), ">7<" in drawn), (4, 2, True))
    trial.check_that("waves.py shows how full a stream is", trial.tool("waves.py", dump, "--fill"), lambda _, drawn, __: "most 2" in drawn and drawn.count("<polygon") == 1)
    _, drawn, err = trial.tool("waves.py", dump, "--nets", "s_q_wr", "--from", "1", "--to", "2")
    trial.check("waves.py draws the nets that are asked for", drawn.count("<polyline") == 1 and "s_q_din" not in drawn, f"   {err}")
    trial.check_that("waves.py says that there is no such net", trial.tool("waves.py", dump, "--nets", "s_r_wr"), lambda status, _, err: (status, "no net s_r_wr" in err) == (1, True))
    acts = trial.put("a.vcd", "$scope module T $end\n$var string 1 ! act $end\n$upscope $end\n$enddefinitions $end\n#0\nsread_q !\n#2\nstest_i_<_n !\n#3\nssay_nothing !\n#9\nsread_q !\n")
    drawn = trial.tool("waves.py", acts)[1]
    trial.check_equal("waves.py draws texts", (drawn.count("<title>read q<"), [shown for shown, _ in texts(drawn)][-4:]), (2, ["read q", "test i..", "say nothing", "read q"]))


def try_texts(trial):
    """The pictures of the pages and of circuits."""
    for name in sorted(os.listdir(os.path.join(ROOT, "docs"))):
        if name.endswith(".svg"):
            try_labels(trial, f"docs/{name}", read(f"docs/{name}"))
    for name, text in circuits(trial):
        try_labels(trial, f"the network of {name}", trial.tool("graph.py", trial.put("g.v", text))[1])
