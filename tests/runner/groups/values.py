"""Operators at the bounds of each type, conversions, and the types to which operands are converted, by the tables `cases/values/*.rows`."""
from runner.groups.data import run_on
from runner.groups.sources import try_rows
from runner.trial import read

PROGRAM = read("tests/cases/files/values.template")


def check_tokens(trial, name, kinds, values, terms, wanted, constants=""):
    """The tokens that a program writes which has two values as scalars x and y and as constants A and B."""
    left, right, out = kinds
    a, b = values
    writes = " ".join(f"q << ({term});" for term in terms)
    source = PROGRAM.format(left=left, right=right, out=out, a=hex(a), b=hex(b), constants=constants, writes=writes)
    said = run_on(trial, source, f'{{"scalars": {{"x": {a}, "y": {b}}}}}')
    line = f"stream q: {' '.join(str(it) for it in wanted)} eot"
    trial.check(name, said.status == 0 and said.out.decode().split("\n")[0] == line, f"   wanted {line}\n   {said}")


def number(text):
    return int(text, 16)


def try_operators(trial, row):
    """`KIND A B: OPERATOR RESULT ..`, at run time and, as the checker has it, of constants."""
    head, _, rest = row.partition(": ")
    kind, a, b = head.split()
    words = rest.split()
    operators, wanted = words[::2], [number(it) for it in words[1::2]]
    values = number(a), number(b)
    terms = [f"x {it} {'B' if it in '/%' else 'y'}" for it in operators]
    check_tokens(trial, f"{head} at run time", (kind, kind, kind), values, terms, wanted)
    constants = " ".join(f"const {kind} R{at} = A {it} B;" for at, it in enumerate(operators))
    terms = [f"R{at}" for at in range(len(operators))]
    check_tokens(trial, f"{head} of constants", (kind, kind, kind), values, terms, wanted, constants)


def try_conversions(trial, row):
    """`FROM TO VALUE RESULT`."""
    source, to, value, wanted = row.split()
    terms = [f"({to}) x", f"{to}(x)", f"static_cast<{to}>(x)", f"({to}) A", "x"]
    check_tokens(trial, row, (source, source, to), (number(value), 0), terms, [number(wanted)] * len(terms))


def try_joined(trial, row):
    """`LEFT RIGHT KIND`: one below zero, and the bit above 32, show sign and width."""
    left, right, kind = row.split()
    below = 2**32 - 1 if kind == "unsigned" else 2**64 - 1
    above = 2**40 if kind in ("int64_t", "uint64_t") else 0
    less = int(kind in ("int", "int64_t"))
    for kinds in ((left, right, "uint64_t"), (right, left, "uint64_t")):
        terms = ["x + y - 1", "(x + y + 1) << 40", "(true ? x : y) - 1", "x + y - 1 < 0"]
        check_tokens(trial, row, kinds, (0, 0), terms, [below, above, below, less])


def try_literals(trial, row):
    """`TEXT KIND VALUE`."""
    text, kind, value = row.split()
    below = 2**32 - 1 if kind == "unsigned" else 2**64 - 1
    above = 2**40 if kind in ("int64_t", "uint64_t") else 0
    less = int(kind in ("int", "int64_t"))
    terms = [text, f"{text} - {text} - 1", f"({text} - {text} + 1) << 40", f"{text} - {text} - 1 < 0"]
    check_tokens(trial, row, ("int", "int", "uint64_t"), (0, 0), terms, [int(value), below, above, less])


KINDS = {"operators": try_operators, "conversions": try_conversions, "joined": try_joined, "literals": try_literals}


def try_all(trial):
    try_rows(trial, "values", KINDS)
