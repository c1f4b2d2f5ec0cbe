"""Bucket sort by eight lanes: each sends its keys to the eight buckets through a crossbar of 64 streams, and each bucket sorts what it gets."""
from families.parts import Design, numbers, tasks

LANES, KEYS = 8, 24

CASES = " else ".join(f"if (b == {at}) {{ q_{at} << x; }}" for at in range(LANES))
OUTS = ", ".join(f"tapa::ostream<int>& q_{at}" for at in range(LANES))
INS = ", ".join(f"tapa::istream<int>& q_{at}" for at in range(LANES))
CLOSED = " ".join(f"q_{at}.close();" for at in range(LANES))
TAKEN = "\n".join(f"  TAPA_WHILE_NOT_EOT(q_{at}) {{ out << q_{at}.read(); }}\n  q_{at}.open();" for at in range(LANES))

TASKS = tasks("bucket", CELLS=LANES * KEYS, OUTS=OUTS, INS=INS, CASES=CASES, CLOSED=CLOSED, TAKEN=TAKEN)


def design():
    """Keys from 0 to 255 in eight memories; the keys of a bucket in order, behind them zeros."""
    given = [numbers(KEYS, lane, 256) for lane in range(LANES)]
    lanes = range(LANES)
    invokes = [f"Load, a_{lane}, {KEYS}, lane[{lane}]" for lane in lanes]
    invokes += [f"Classify, lane[{lane}], {KEYS}, " + ", ".join(f"cross_{lane}[{to}]" for to in lanes) for lane in lanes]
    invokes += ["Merge, " + ", ".join(f"cross_{lane}[{to}]" for lane in lanes) + f", merged[{to}]" for to in lanes]
    invokes += [f"Sort, merged[{to}], sorted[{to}]" for to in lanes] + [f"Store, sorted[{to}], b_{to}" for to in lanes]
    streams = [f"tapa::streams<int, {LANES}> lane, merged, sorted"] + [f"tapa::streams<int, {LANES}> cross_{lane}" for lane in lanes]
    buckets = [sorted(key for keys in given for key in keys if key >> 5 == to) for to in lanes]
    memories = {f"a_{lane}": keys for lane, keys in enumerate(given)}
    memories.update({f"b_{to}": [0] * (LANES * KEYS) for to in lanes})
    parameters = ", ".join([f"tapa::mmap<const int> a_{lane}" for lane in lanes] + [f"tapa::mmap<int> b_{to}" for to in lanes])
    wanted = {f"b_{to}": keys + [0] * (LANES * KEYS - len(keys)) for to, keys in enumerate(buckets)}
    return Design(TASKS, parameters, streams, invokes, {"memories": memories}, wanted)
