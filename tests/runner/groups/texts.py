"""Verilog texts: whether each is a text of the subset, and otherwise the rule that it breaks, with the place or the name, by the tables `cases/texts/*.rows`."""
import os
import re
import resource

from runner.made import alike
from runner.groups.sources import bytes_of, parts
from runner.trial import each, read

LETTERS = {"n": "\n", "r": "\r", "t": "\t", "s": " ", "b": "\\x5c"}
# a text of which nothing is told, but perhaps that it wants data or is not done in one cycle
OK = (0, 3, 7)


def told(trial, text):
    """What is told of a text."""
    trial.put("x.v", text)
    said = trial.run(["cosim", "x.v", "--cycles", "1"])
    err = said.err.decode("utf-8", "replace")
    placed = re.fullmatch(r"tapa: x\.v:(\d+:\d+): V1 no text of the subset\n", err)
    named = re.fullmatch(r"tapa: x\.v: (V[2-6] \S+)\n", err)
    if said.status == 1 and said.out == b"" and (placed or named):
        return f"V1 {placed[1]}" if placed else named[1]
    return "ok" if said.status in OK else str(said)


def unescaped(text, head):
    r"""The bytes of a row's text, in which `\n`, `\r`, `\t`, `\s` and `\b` are a line feed, a carriage return, a tab, a blank and a backslash, `\x` with two
    hexadecimal digits is any byte, and `\h` is the head."""
    return bytes_of(re.sub(r"\\([nrtsbh])", lambda it: head if it[1] == "h" else LETTERS[it[1]], text))


def try_prefixes(trial, row, head):
    """A text and the places that V1 tells of its parts, from no byte on."""
    source, places = re.fullmatch(r"prefixes `([^`]*)` (.*)", row).groups()
    text = unescaped(source, head)
    for length, place in enumerate(places.split()):
        trial.check_equal(f"{length} bytes of {source}", told(trial, text[:length]), f"V1 {place}")
    trial.check_equal(f"places of {source}", len(places.split()), len(text))


def framed(frame, net, own):
    """The design `frame` with own lines at `*`, and without the driver there of the net."""
    lines = [line for line in frame.split("|") if not line.startswith(f"assign {net} ")]
    return "\n".join(own if line == "*" else line for line in lines)


def try_case(trial, word, frame, own):
    """`case NET TOLD `lines``."""
    _, net, wanted = word.split(" ", 2)
    trial.check_equal(own, told(trial, framed(frame, net, own)), wanted)


@each(("tests/cases/texts/read.rows", "tests/cases/texts/rules.rows"))
def try_table(trial, path):
    head, frame, gaps = "", "", []
    for row in read(path).splitlines():
        if not row or row.startswith("# "):
            continue
        if row.startswith("prefixes "):
            try_prefixes(trial, row, head)
            continue
        word, (source,) = parts(row)
        if word == "frame":
            frame = source
            continue
        if word.startswith("case "):
            try_case(trial, word, frame, source)
            continue
        if word == "head":
            head = source
            head = re.sub(r"\\([nrtsb])", lambda it: LETTERS[it[1]], head)
        elif word == "gap":
            gaps.append(unescaped(source, head))
        elif word == "gaps":
            for gap in gaps:
                trial.check_equal(f"{gap} in {source}", told(trial, gap + unescaped(source, head).replace(b" ", gap) + gap), "ok")
        else:
            trial.check_equal(source, told(trial, unescaped(source, head)), word)


def try_large(trial):
    """A design has no limit of its own: a thousand ports, blocks a thousand deep, and a thousand modules, each within the one before."""
    top = "module t_X ( input clk , input rst , output done"
    ports = "".join(f" , input [ 31 : 0 ] v_{number}" for number in range(1000))
    trial.check_equal("a thousand ports", told(trial, f"{top}{ports} ) ;\nassign done = 1'd1 ;\nendmodule\n"), "ok")
    block = "if ( rst ) begin\n" * 1000 + "r <= 1'd1 ;\n" + "end\n" * 1000
    trial.check_equal("a block a thousand deep", told(trial, f"{top} ) ;\nreg r ;\nassign done = r ;\nalways @ ( posedge clk ) begin\n{block}end\nendmodule\n"), "ok")
    child = "module c{0} ( input a , output o ) ;\nc{1} i ( . a ( a ) , . o ( o ) ) ;\nendmodule\n"
    modules = "".join(child.format(number, number + 1) for number in range(1000)) + "module c1000 ( input a , output o ) ;\nassign o = a ;\nendmodule\n"
    trial.check_equal("a thousand modules", told(trial, f"{top} ) ;\nc0 i ( . a ( rst ) , . o ( done ) ) ;\nendmodule\n{modules}"), "ok")
    nested = "if ( rst ) begin\n" * 200_000 + "end\n" * 200_000
    trial.check_equal("a block 200,000 deep", told(trial, f"{top} ) ;\nreg r ;\nassign done = r ;\nalways @ ( posedge clk ) begin\n{nested}end\nendmodule\n"), "ok")


def seconds(call):
    """What a call answers, and the processor seconds that the programs took which it ran."""
    before = os.times()
    said = call()
    after = os.times()
    return said, after.children_user + after.children_system - before.children_user - before.children_system


def try_alike(trial):
    """Names that share one chain of a table by their hashes are found nearly as fast as others: by a walk along the chain they would take minutes. One of them may
    be declared again, or not at all."""
    names = list(alike.names(80_000))
    wires = "".join(f"wire {name} ;\nassign {name} = rst ;\n" for name in names)
    other = next(alike.names(1, front=6))
    for what, line, wanted in (
        ("80,000 names of one hash", "assign done = 1'd1 ;", "ok"),
        ("one of them declared again", f"wire {names[-1]} ;\nassign done = 1'd1 ;", f"V2 {names[-1]}"),
        ("one more that is not declared", f"assign done = {other} ;", f"V2 {other}"),
    ):
        said, taken = seconds(lambda: told(trial, f"module t_X ( input clk , input rst , output done ) ;\n{wires}{line}\nendmodule\n"))
        trial.check_equal(what, said, wanted)
        trial.check(f"{what}, in time", taken < 8, f"   {taken} seconds of a processor")


def doubled(count, last="assign o = a ;\n"):
    """Modules of which each has two instances of the next: 2 to the power of their number in all."""
    inside = ("module c{0} ( input clk , input a , output o ) ;\nwire p ;\nc{1} i ( . clk ( clk ) , . a ( a ) , . o ( p ) ) ;\n"
              "c{1} j ( . clk ( clk ) , . a ( p ) , . o ( o ) ) ;\nendmodule\n")
    top = "module t_X ( input clk , input rst , output done ) ;\nc0 i ( . clk ( clk ) , . a ( rst ) , . o ( done ) ) ;\nendmodule\n"
    return top + "".join(inside.format(at, at + 1) for at in range(count)) + f"module c{count} ( input clk , input a , output o ) ;\n{last}endmodule\n"


# 1,048,576 cells of 128 bits, which are 16 MB
MEMORY = "reg [127:0] cells [ 0 : 1048575 ] ;\nassign o = a ;\nalways @ ( posedge clk ) begin\nif ( a ) begin\ncells [ a ] <= 128'd1 ;\nend\nend\n"


def try_doubled(trial):
    """A short text with more instances, or more cells, than there is memory for is told at once; one with a thousand instances is no matter."""
    trial.check_equal("modules doubled ten times", told(trial, doubled(10)), "ok")
    for what, text, megabytes in (
        ("modules doubled 30 times", doubled(30), 500),
        ("modules doubled 40 times", doubled(40), 500),
        ("modules doubled 70 times", doubled(70), 500),
        ("modules doubled 40 times", doubled(40), 4000),
        ("a memory of 16 MB doubled 10 times", doubled(10, MEMORY), 4000),
    ):
        trial.put("x.v", text)
        limit = (megabytes << 20, megabytes << 20)
        said, taken = seconds(lambda: trial.run(["cosim", "x.v"], before=lambda: resource.setrlimit(resource.RLIMIT_AS, limit)))
        if b"AddressSanitizer" in said.err:
            trial.note("a build with a sanitizer has no limit on memory, so too many instances were not tried")
            return
        trial.check_equal(f"{what} in {megabytes} MB", (said.status, said.out, said.err), (9, b"", b"tapa: out of memory\n"))
        trial.check(f"{what} in {megabytes} MB, in time", taken < 0.5, f"   {taken} seconds of a processor")
