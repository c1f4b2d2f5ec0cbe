"""Tasks around the statements of a source that is made at random for `tools/port.py`: the ways in which users wait for the end of a stream, helpers that take streams, arrays of streams that are routed, and networks of several levels."""

# How a task goes over the tokens of a stream: before its body, how the body reads, and after it.
WAITS = (
    ("TAPA_WHILE_NOT_EOT(in) {{\n", "in.read(nullptr)", "}}\n"),
    ("while (!in.eot(nullptr)) {{\n", "in.read()", "}}\n"),
    ("for (; !in.eot(nullptr);) {{\n", "in.read(nullptr)", "}}\n"),
    ("while (true) {{\n  if (in.eot(nullptr)) break;\n", "in.read()", "}}\n"),
    ("for (bool ok; !in.eot(ok) || !ok;) {{\n  if (!ok) continue;\n", "in.read(nullptr)", "}}\n"),
    ("while (!in.eot(nullptr)) {{\n", "Receive<{0}>(in)", "}}\n"),
    ("do {{\n  if (in.eot(nullptr)) break;\n", "in.read()", "}} while (true);\n"),
    ("TAPA_WHILE_NOT_EOT(in) {{\n  {0} first = in.peek(nullptr);\n  Sent(late, first);\n", "in.read(nullptr)", "}}\n"),
)

HELPERS = """template <class T> T Receive(tapa::istream<T>& in) { return in.read(); }
template <class T> static void Sent(tapa::ostream<T>& out, const T& it) {
  T kept = it;
  out.write(kept);
}
template <class T> void Finished(tapa::istream<T>& in, tapa::ostream<T>& out) {
  in.open();
  out.close();
}
template <class T, int N> void Closed(tapa::ostreams<T, N>& all) {
  for (int at = 0; at < N; ++at) all[at].close();
}
template <class T> void Drain(tapa::istream<T>& in) {
  while (!in.eot(nullptr)) in.read(nullptr);
  in.open();
}
"""

# Workers behind an array of streams, by a fixed turn, by a computed lane with a stream of lanes, in a task of a level of its own, or as a chain; {0} is the struct, {1} what works, {2} how many, {3} the lane of a token.
SPREAD = """void Spread(tapa::istream<{0}>& in, tapa::ostreams<{0}, {2}>& out) {{
  int k = 0;
  TAPA_WHILE_NOT_EOT(in) {{
    out[k].write(in.read(nullptr));
    k = (k + 1) % {2};
  }}
  in.open();
  for (int j = 0; j < {2}; ++j) out[j].close();
}}
"""
WORKER = """void Worker(int id, tapa::istream<{0}>& in, tapa::ostream<{0}>& out) {{
  TAPA_WHILE_NOT_EOT(in) {{
{1}  }}
  in.open();
  out.close();
}}
"""
GATHER = """void Gather(tapa::istreams<{0}, {2}>& in, tapa::ostream<{0}>& out, int n) {{
  for (int i = 0; i < n; ++i) out << in[i % {2}].read();
  for (int j = 0; j < {2}; ++j) in[j].open();
  out.close();
}}
"""
UPPER = """void Workers(tapa::istreams<{0}, {2}>& in, tapa::ostreams<{0}, {2}>& out) {{
  tapa::streams<{0}, {2}, 3> between("between");
  tapa::task().invoke<tapa::join, {2}>(Worker, tapa::seq(), in, between).invoke<tapa::join, {2}>(Worker, 7, between, out);
}}
"""
ROUTE = """void Route(tapa::istream<{0}>& in, tapa::ostreams<{0}, {2}>& out, tapa::ostream<uint8_t>& lanes) {{
  while (!in.eot(nullptr)) {{
    const {0} it = in.read();
    const unsigned lane = ({3}) & ({2} - 1);
    out[lane] << it;
    lanes << lane;
  }}
  in.open();
  Closed<{0}, {2}>(out);
  lanes.close();
}}
"""
COLLECT = """void Collect(tapa::istreams<{0}, {2}>& in, tapa::istream<uint8_t>& lanes, tapa::ostream<{0}>& out) {{
  TAPA_WHILE_NOT_EOT(lanes) {{
    const uint8_t lane = lanes.read(nullptr);
    out.write(in[lane].read());
  }}
  lanes.open();
  [[tapa::unroll]] for (int j = 0; j < {2}; j++) {{
    in[j].open();
  }}
  out.close();
}}
"""
KEEP = """void Keep(tapa::istream<{0}>& in, tapa::mmap<{0}> kept, tapa::ostream<{0}>& out) {{
  int count = 0;
  TAPA_WHILE_NOT_EOT(in) {{
    kept[count] = in.read(nullptr);
    {0} back = kept[count++];
    out << back;
  }}
  in.open();
  for (int at = count; at-- > 1;) kept[at] = kept[at - 1];
  out.close();
}}
"""

LOADS = (
    "void Load(tapa::mmap<const uint64_t> m, int n, tapa::ostream<{0}>& out) {{\n  for (int i = 0; i < n; ++i) out << {1}(m[i]);\n  out.close();\n}}\n",
    "void Load(tapa::async_mmap<uint64_t>& m, int n, tapa::ostream<{0}>& out) {{\n  for (int req = 0, resp = 0; resp < n;) {{\n    if (req < n && m.read_addr.try_write(req)) ++req;\n    uint64_t word;\n"
    "    if (m.read_data.try_read(word)) {{\n      out << {1}(word);\n      ++resp;\n    }}\n  }}\n  out.close();\n}}\n",
    "void Load(tapa::mmap<const uint64_t> m, int n, tapa::ostream<{0}>& out) {{\n  if (n == 0) {{\n    out.close();\n    return;\n  }}\n  int i = 0;\n  do {{\n    Sent<{0}>(out, {1}(m[i++]));\n  }} while (i < n);\n  out.close();\n}}\n",
)
STORES = (
    "void Store(tapa::istream<{2}>& in, tapa::mmap<uint64_t> m) {{\n  int at = 0;\n  TAPA_WHILE_NOT_EOT(in) {{\n    m[at++] = {3}(in.read(nullptr));\n  }}\n  in.open();\n}}\n",
    "void Store(tapa::istream<{2}>& in, tapa::async_mmap<uint64_t>& m) {{\n  int at = 0;\n  TAPA_WHILE_NOT_EOT(in) {{\n    m.write_addr.write(at++);\n    m.write_data.write({3}(in.read(nullptr)));\n    m.write_resp.read();\n  }}\n  in.open();\n}}\n",
    "void Store(tapa::istream<{2}>& in, tapa::mmap<uint64_t> m) {{\n  uint64_t all[8] = {{}};\n  size_t at = 0;\n  for (; !in.eot(nullptr); at++) all[at & 7] = {3}(in.read());\n  in.open();\n  for (const auto& it : all) m[--at & 7] = it;\n}}\n",
)


def ends(some, texts):
    """The tasks at both ends, whose parameters are words of a memory."""
    load, store = some.choice(LOADS), some.choice(STORES)
    kinds = tuple("async_mmap<uint64_t>&" if "async" in it else "" for it in (load, store))
    return load.format(*texts) + store.format(*texts), kinds


def middle(some, kind, work, lane, calls, name):
    """Workers between a stream and the next one: their text, the streams that they need, and the name of the last stream."""
    sort, ways = some.randrange(5), some.choice((2, 2, 4))
    texts = (kind, work, ways, lane)
    streams = f'  tapa::streams<{kind}, {ways}> qs("qs"), rs("rs");\n  tapa::stream<{kind}> done("done");\n'
    if sort == 4:   # a chain of workers, on one array of streams
        calls += [f"invoke(Worker, 5, {name}, qs)", f"invoke<tapa::join, {ways}>(Worker, tapa::seq(), qs, qs)"]
        return WORKER.format(*texts), f"  tapa::streams<{kind}, {ways} + 1> qs(\"qs\");\n", f"qs[{ways}]"
    workers = WORKER.format(*texts) + (UPPER.format(*texts) if sort in (1, 3) else "")
    calls.append(f"invoke(Route, {name}, qs, lanes)" if sort >= 2 else f"invoke(Spread, {name}, qs)")
    calls.append("invoke(Workers, qs, rs)" if sort in (1, 3) else f"invoke<tapa::join, {ways}>(Worker, tapa::seq(), qs, rs)")
    calls.append("invoke(Collect, rs, lanes, done)" if sort >= 2 else "invoke(Gather, rs, done, n)")
    if sort >= 2:
        return ROUTE.format(*texts) + workers + COLLECT.format(*texts), streams + '  tapa::stream<uint8_t, 8> lanes("lanes");\n', "done"
    return SPREAD.format(*texts) + workers + GATHER.format(*texts), streams, "done"
