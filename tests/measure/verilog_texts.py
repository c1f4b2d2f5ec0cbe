#!/usr/bin/env python3
"""Writes a large text of the Verilog subset to a file, to measure `cosim` on it.

    tests/measure/verilog_texts.py KIND FILE
    tests/measure/verilog_texts.py --list

The most that `cosim` takes are 16,777,216 bytes, which `comments` has. All but `over`, `open` and `cut` are designs whose `done` is 1 from the
first cycle on, without streams and memories, so `cosim FILE` writes the one line `done 1`.
"""
import itertools
import os
import sys

sys.dont_write_bytecode = True
sys.path.insert(0, os.path.dirname(os.path.dirname(os.path.abspath(__file__))))
from runner.made import alike  # noqa: E402
from vechaqir import script  # noqa: E402

MOST = 16_777_216
HEAD = "module t_X ( input clk , input rst , output done ) ;\n"
TAIL = "assign done = 1'd1 ;\nendmodule\n"
MILLION, OPENED = 1_000_000, "if(r)begin "
DONE = "done 1"


def filled(head, parts, tail):
    """As many parts as fit, behind a head and before a tail."""
    taken, left = [head], MOST - len(head) - len(tail)
    for part in parts:
        if len(part) > left:
            break
        taken.append(part)
        left -= len(part)
    return "".join(taken) + tail


def assigns():
    """Wires, each with what an input drives."""
    return filled(HEAD, (f"wire w{at} ;\nassign w{at} = rst ;\n" for at in itertools.count()), TAIL)


def chain():
    """Wires, each with the one behind it in the text, and the last with an input."""
    count = 1
    while len(linked(count * 2)) <= MOST:
        count *= 2
    step = count
    while step:
        if len(linked(count + step)) <= MOST:
            count += step
        step //= 2
    return linked(count)


def linked(count):
    links = "".join(f"wire w{at} ;\nassign w{at} = w{at + 1} ;\n" for at in range(count))
    return f"{HEAD}{links}wire w{count} ;\nassign w{count} = rst ;\n{TAIL}"


def ifs():
    """A million ifs, each in the one before it."""
    return f"{opened_ifs()}r<=rst;{'end ' * MILLION}end\n{TAIL}"


def opened_ifs():
    return f"{HEAD}reg r ;\nalways @ ( posedge clk ) begin\n{OPENED * MILLION}"


def elses():
    """Ifs, each in the else of the one before it."""
    opened, closed = "if(r)begin end else begin\n", "end\n"
    front, behind = f"{HEAD}reg r ;\nalways @ ( posedge clk ) begin\n", f"end\n{TAIL}"
    depth = (MOST - len(front) - len(behind)) // (len(opened) + len(closed))
    return front + opened * depth + closed * depth + behind


def line():
    """One line, without a line end."""
    head, tail = HEAD.replace("\n", ""), TAIL.replace("\n", " ").rstrip()
    return filled(head, (f"wire w{at};assign w{at}=rst;" for at in itertools.count()), tail)


def modules():
    """Instances, each of the same module."""
    child = "module c ( input a , output b ) ;\nassign b = a ;\nendmodule\n"
    return filled(HEAD, (f"wire w{at} ;\nc u{at} ( . a ( rst ) , . b ( w{at} ) ) ;\n" for at in itertools.count()), TAIL + child)


def name():
    """A wire with a name that is as long as it may be."""
    head, middle, behind = HEAD + "wire ", " ;\nassign ", " = rst ;\n" + TAIL
    half = "n" * ((MOST - len(head) - len(middle) - len(behind)) // 2)
    return head + half + middle + half + behind


def number():
    """A literal with as many digits as there may be."""
    head, behind = HEAD + "assign done = 1'd", "1 ;\nendmodule\n"
    return head + "0" * (MOST - len(head) - len(behind)) + behind


def padded(size):
    """A small design with comments of both sorts before each of its words, of so many bytes."""
    words = (HEAD + TAIL).split()
    short, whole = "// a comment /* to the line's end\n", (size - sum(len(word) + 1 for word in words)) // (2 * len(words))
    parts = [("/*" + " * /\n" * ((whole - 4) // 5) + "*/") + short * (whole // len(short)) + word + "\n" for word in words]
    text = "".join(parts)
    return text + " " * (size - len(text))


def comments():
    """As many bytes as there may be, most of them in comments."""
    return padded(MOST)


def open_comment():
    """A comment that is left open at the end of a design."""
    text = HEAD + TAIL
    return text + "/*" + " *" * ((MOST - len(text) - 2) // 2)


def same_hash():
    """Wires whose names all share a chain of a table by their hashes."""
    return filled(HEAD, (f"wire {name} ;\nassign {name} = rst ;\n" for name in alike.names(MOST)), TAIL)


KINDS = {it.__name__: (it, DONE) for it in (assigns, chain, ifs, elses, line, modules, name, number, comments)}
KINDS["alike"] = same_hash, DONE
KINDS["over"] = lambda: padded(MOST + 1), f"tapa: FILE is longer than {MOST} bytes"
KINDS["open"] = open_comment, "tapa: FILE:4:1: V1 no text of the subset"
KINDS["cut"] = opened_ifs, f"tapa: FILE:4:{len(OPENED) * MILLION + 1}: V1 no text of the subset"


@script.word("kind", metavar="KIND", choices=KINDS, nargs="?", help="what the text has")
@script.word("file", metavar="FILE", nargs="?", help="where it is written")
@script.word("--list", action="store_true", help="prints the kinds, with the answer that each is to get")
def main(asked):
    if asked.list:
        print("\n".join(f"{kind:9} {answer}" for kind, (_, answer) in KINDS.items()))
        return
    if not asked.file:
        raise script.Usage("a kind and a file are needed")
    with open(asked.file, "w", encoding="ascii", newline="\n") as file:
        file.write(KINDS[asked.kind][0]())


if __name__ == "__main__":
    script.call(main)
