"""Data files, by the tables `cases/data/*.rows`."""
from runner.groups.sources import bytes_of, parts, try_rows
from runner.trial import read

# Of a program that has two memories and passes on two scalars.
ECHO = "stream q: {}\nmemory a:{}\nmemory b:{}\ndone 6\n"


def run_on(trial, source, given):
    trial.put("r.cpp", source)
    trial.put("d.json", given)
    return trial.run(["run", "r.cpp", "T", "d.json"])


def check_fault(trial, name, said, told):
    """The fault is told with its key, and nothing is written."""
    code, _, key = told.partition(" ")
    line = f"tapa: d.json: {code}\n" if code == "J1" else f"tapa: d.json: {code} {key}\n"
    trial.check(name, (said.status, said.out, said.err) == (3, b"", line.encode()), f"   {said}")


def try_read(trial, row):
    """`SCALARS | CELLS OF a | CELLS OF b `data``."""
    shown, (given,) = parts(row)
    scalars, *memories = (part.strip() for part in shown.split("|"))
    said = run_on(trial, read("tests/cases/data/echo.cpp"), bytes_of(given))
    wanted = ECHO.format(scalars, *(" " + cells if cells else "" for cells in memories))
    trial.check(row, (said.status, said.out.decode()) == (0, wanted), f"   {said}")


def try_fault(trial, row):
    """`CODE KEY `data``."""
    told, (given,) = parts(row)
    said = run_on(trial, read("tests/cases/data/echo.cpp"), bytes_of(given))
    check_fault(trial, row, said, told)


def try_number(trial, row):
    """`KIND NUMBER BITS`, or the code of a fault."""
    kind, number, wanted = row.split()
    source = f"""void P({kind} n, tapa::ostream<{kind}>& q) {{ q << n; }} void C(tapa::istream<{kind}>& q) {{ q.read(); }}
void T({kind} n) {{ tapa::stream<{kind}> q; tapa::task().invoke(P, n, q).invoke(C, q); }}
"""
    said = run_on(trial, source, f'{{"scalars":{{"n":{number}}}}}')
    if wanted.startswith("J"):
        check_fault(trial, row, said, "J1" if wanted == "J1" else f"{wanted} scalars.n")
    else:
        trial.check(row, (said.status, said.out.decode()) == (0, f"stream q: {wanted}\ndone 4\n"), f"   {said}")


def with_memories(count):
    """A program with so many memories, a, b, c and so on, and a task for each."""
    names = [chr(ord("a") + number) for number in range(count)]
    parameters = ", ".join(f"tapa::mmap<uint8_t> {name}" for name in names)
    chain = "".join(f".invoke(M, {name})" for name in names)
    return f"void M(tapa::mmap<uint8_t> m) {{ }} void T({parameters}) {{ tapa::task(){chain}; }}"


def with_cells(counts, last):
    """A data file whose memories have so many cells."""
    lists = []
    for number, count in enumerate(counts):
        cells = ",".join(["7", "0"] * (count // 2) + ["7"] * (count % 2))
        cells = cells[: cells.rfind(",") + 1] + last if count else ""
        lists.append(f'"{chr(ord("a") + number)}":[{cells}]')
    return f'{{"memories":{{{",".join(lists)}}}}}'


def try_cells(trial, row):
    """`TOLD MEMORIES: COUNTS [last CELL]`."""
    told, _, rest = row.rpartition(":")
    told, _, memories = told.rpartition(" ")
    counts, _, last = rest.partition(" last ")
    each = []
    for count in counts.split():
        times, _, cells = count.rpartition("*")
        each += [int(cells)] * int(times or 1)
    said = run_on(trial, with_memories(int(memories)), with_cells(each, last or "7"))
    if told != "read":
        check_fault(trial, row, said, told)
        return
    lines = [line.split() for line in said.out.decode().splitlines()]
    shown = [(line[0], len(line) - 2) for line in lines[:-1]]
    trial.check(row, said.status == 0 and shown == [("memory", count) for count in each], f"   {said}")


KINDS = {"read": try_read, "fault": try_fault, "number": try_number, "cells": try_cells}


def try_all(trial):
    try_rows(trial, "data", KINDS)
