"""Names that a hash does not tell apart: all have one number by the polynomial in 131 of crates/vlog_scope, as far as its lowest bits go."""
import itertools
import string

BASE, ENDING = 131, 3
LETTERS = (string.ascii_letters + string.digits + "_").encode()


def number(letters):
    """The polynomial of some letters."""
    made = 0
    for letter in letters:
        made = made * BASE + letter
    return made


def names(count, bits=20, front=5):
    """So many names, of which the lowest bits of the number are 0: any front letters, and the three behind them that make them so."""
    size = 1 << bits
    endings = {number(ending) % size: bytes(ending) for ending in itertools.product(LETTERS, repeat=ENDING)}
    for letters in itertools.product(string.ascii_lowercase.encode(), repeat=front):
        if not count:
            return
        ending = endings.get(-number(letters) * BASE**ENDING % size)
        if ending:
            count -= 1
            yield (bytes(letters) + ending).decode()
