"""Changes of good texts, and texts from nothing: bytes, tokens, sizes, nesting, numbers at bounds, and parts of two texts in one."""
import json
import re

TOKEN = re.compile(rb"\w+|\s+|<<=|>>=|<<|>>|&&|\|\||[<>=!+*/%&|^-]=|\+\+|--|::|[^\w\s]")
BOUNDS = [0, 1, 2, 3, 7, 8, 15, 16, 22, 23, 31, 32, 63, 64, 65, 100, 127, 128, 129, 255, 256, 512, 513, 1000, 1001, 1024, 1025, 4095, 4096, 4097, 65535, 65536, 65537, 1048576, 1048577, 4194304,
          500000, 500001, 2**31 - 1, 2**31, 2**32 - 1, 2**32, 2**32 + 1, 10**12, 10**12 + 1, 2**53, 2**63 - 1, 2**63, 2**64 - 1, 2**64, 2**64 + 1, 10**19, 2**128 - 1, 2**128, 10**400]
SPELLED = [b"-1", b"-0", b"1.0", b"1e2", b"1e309", b"00", b"08", b"0x", b"0xffffffffffffffff", b"0b11", b"1u", b"1ull", b"1'd1", b"1'd2", b"128'd0", b"129'd0", b"0'd0", b"-9223372036854775808", b"-9223372036854775809"]
BYTES = [0, 9, 10, 13, 32, 34, 36, 39, 40, 41, 47, 42, 44, 58, 59, 60, 62, 64, 91, 92, 93, 96, 123, 125, 127, 128, 192, 239, 254, 255]
OPENERS = [b"(", b"{", b"[", b"!", b"~", b"-", b"if (1) ", b"/*", b'"', b"<", b"{\"a\":", b"[[", b"begin ", b"if ( a ) begin ", b"else if (1) ", b"1 + ", b"while (true) { ", b"::", b"? 1 : "]
DEPTHS = [1, 2, 32, 63, 64, 65, 66, 126, 127, 128, 129, 999, 1000, 1001]
MOST = 300_000


def bits(some, text, _):
    found = bytearray(text)
    for _ in range(some.randint(1, 4) if found else 0):
        found[some.randrange(len(found))] ^= 1 << some.randrange(8)
    return bytes(found)


def byte(some, text, _):
    at, new = some.randint(0, len(text)), bytes([some.choice(BYTES)])
    return text[:at] + new + text[at + some.randint(0, 1):]


def cut(some, text, _):
    return text[:some.randint(0, len(text))]


def drop(some, text, _):
    at = some.randint(0, len(text))
    return text[:at] + text[at + some.randint(1, 60):]


def grown(some, text, _):
    """A part of the text again and again."""
    at = some.randint(0, len(text))
    part = text[at:at + some.choice([1, 4, 20, 80, 300])]
    count = some.choice([1, 1, 2, 2, 10, 64, 65, 1000]) if len(text) < MOST else 1
    return text[:at] + part * count + text[at:]


def spliced(some, text, other):
    return text[:some.randint(0, len(text))] + other[some.randint(0, len(other)):]


def lines(some, text, other):
    """Lines of both texts, changed for one another."""
    ours, theirs = text.split(b"\n"), other.split(b"\n")
    at = some.randrange(len(ours))
    way = some.randrange(4)
    if way == 0:
        ours[at] = some.choice(theirs)
    elif way == 1:
        ours.insert(at, some.choice(theirs))
    elif way == 2:
        del ours[at]
    else:
        there = some.randrange(len(ours))
        ours[at], ours[there] = ours[there], ours[at]
    return b"\n".join(ours)


def tokens(some, text, other):
    """A token away, doubled, changed for another, or for one of another text."""
    found = TOKEN.findall(text)
    solid = [at for at, it in enumerate(found) if not it.isspace()]
    if not solid:
        return other
    at, there, way = some.choice(solid), some.choice(solid), some.randrange(5)
    if way == 0:
        found[at] = b""
    elif way == 1:
        found[at] += b" " + found[at]
    elif way == 2:
        found[at], found[there] = found[there], found[at]
    elif way == 3:
        found[at] = found[there]
    else:
        found[at] = some.choice(TOKEN.findall(other) or [b""])
    return b"".join(found)


def bound(some):
    return some.choice(SPELLED) if some.random() < 0.2 else str(some.choice(BOUNDS)).encode()


def number(some, text, _):
    """A number in place of one of the text."""
    found = list(re.finditer(rb"(?<!\w)\d+", text))
    if not found:
        return text + bound(some)
    it = some.choice(found)
    new = bound(some) if some.random() < 0.7 else str(some.randint(0, 300)).encode()
    return text[:it.start()] + new + text[it.end():]


def named(some, text, _):
    """A name in place of another, once or throughout, or a long one."""
    found = sorted(set(re.findall(rb"[A-Za-z_]\w*", text)))
    if not found:
        return text
    old, new = some.choice(found), some.choice(found) if some.random() < 0.8 else b"a" * some.choice([100, 5000, 70000])
    places = list(re.finditer(rb"\b" + old + rb"\b", text))
    if not places:
        return text
    chosen = places if some.random() < 0.3 and len(new) * len(places) < MOST else [some.choice(places)]
    for it in reversed(chosen):
        text = text[:it.start()] + new + text[it.end():]
    return text


def nested(some, text, _):
    """Openers in a row before a token, sometimes closed behind it."""
    found = TOKEN.findall(text)
    if not found:
        return text
    at, opener, depth = some.randrange(len(found)), some.choice(OPENERS), some.choice(DEPTHS) if some.random() < 0.97 else 30_000
    closer = {b"(": b")", b"{": b"}", b"[": b"]", b"[[": b"]]", b"{\"a\":": b"}", b"begin ": b" end", b"while (true) { ": b"}"}.get(opener, b"")
    found[at] = opener * depth + found[at] + (closer * depth if some.random() < 0.7 else b"")
    return b"".join(found)


CHANGES = [bits, byte, cut, drop, grown, spliced, lines, lines, tokens, tokens, tokens, number, number, number, named, named, nested]


def changed(some, text, other):
    """A text after one or a few changes."""
    for _ in range(some.choice([1, 1, 1, 1, 2, 2, 3, 6])):
        text = some.choice(CHANGES)(some, text, other)[:3 * MOST]
    return text


def noise(some):
    """Bytes, or tokens, from nothing."""
    if some.random() < 0.5:
        return some.randbytes(some.choice([0, 1, 2, 10, 100, 4000]))
    words = [b"void", b"T", b"(", b")", b"{", b"}", b";", b"tapa", b"::", b"int", b"1", b"module", b"endmodule", b"wire", b"[", b"]", b":", b",", b'"', b"true", b"null", b"clk", b"=", b"+"]
    return b" ".join(some.choice(words) for _ in range(some.choice([1, 5, 40, 400])))


def value(some, depth=3):
    """A JSON value."""
    way = some.randrange(9 if depth else 6)
    if way == 7:
        return [value(some, depth - 1) for _ in range(some.randint(0, 5))]
    if way == 8:
        return {some.choice(["rows", "n", "a", "scalars", "", "é\n", "LUT"]): value(some, depth - 1) for _ in range(some.randint(0, 4))}
    return [some.choice(BOUNDS[:-1]), -some.choice(BOUNDS[:-1]), None, some.random() < 0.5, "text", 1.5, some.randint(0, 9)][way]


def places(it, path=()):
    yield path
    for key in (it if isinstance(it, dict) else range(len(it)) if isinstance(it, list) else ()):
        yield from places(it[key], (*path, key))


def tree(some, text, _):
    """A JSON text with other values, keys or lengths at some places of its tree."""
    try:
        it = json.loads(text)
    except ValueError:
        return text
    for _ in range(some.randint(1, 3)):
        path = some.choice(list(places(it))[1:] or [()])
        if not path:
            break
        above = it
        for key in path[:-1]:
            above = above[key]
        last = path[-1]
        way = some.randrange(4)
        if way == 0:
            del above[last]
        elif way == 1 and isinstance(above, list):
            above[last:last] = [above[last]] * some.choice([1, 2, 31, 1000])
        elif way == 2 and isinstance(above, dict):
            above[some.choice(["version", "levels", "pins", "forbidden", "percent", "waits", "x", "n", "é", "a b", "a\nb"])] = value(some)
        else:
            above[last] = value(some)
    return json.dumps(it, ensure_ascii=some.random() < 0.5).encode()


# A value of a device file that is at a bound of its range, or one past it.
AT_BOUNDS = {"rows": [0, 1, 16, 17], "cols": [0, 1, 16, 17], "percent": [0, 1, 100, 101], "version": [0, 1, 2, 3], "levels": [0, 1, 16, 17], "LUT": [0, 2**32 - 1, 2**32], "FF": [0, 2**32 - 1, 2**32]}


def at_bounds(some, device):
    """A device file with one number at a bound, and lists that are one too short or too long for it."""
    try:
        tree = json.loads(device)
    except ValueError:
        return device
    spots = [(it, key) for it in [tree, *tree.get("slots", []), *tree.get("tasks", {}).values()] if isinstance(it, dict) for key in AT_BOUNDS if key in it or it is tree]
    it, key = some.choice(spots)
    it[key] = some.choice(AT_BOUNDS[key])
    for name in ("slots", "levels_rows", "levels_cols", "forbidden"):
        if isinstance(tree.get(name), list) and tree[name] and some.random() < 0.2:
            tree[name] = some.choice([tree[name][:-1], tree[name] + tree[name][-1:]])
    return json.dumps(tree).encode()
