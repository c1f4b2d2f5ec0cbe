// A join of two relations by a hash table with linear probing; keys of odd widths, tuples as structs, a template over the number of buckets.
#include <ap_int.h>
#include <tapa.h>

typedef ap_uint<24> join_key_t;
typedef ap_uint<6> slot_t;

struct Tuple {
  join_key_t key;
  uint32_t payload;
};

struct Joined {
  uint32_t left, right;
  join_key_t key;
};

template <int kSlots>
struct HashTable {
  join_key_t keys[kSlots];
  uint32_t payloads[kSlots];
  bool used[kSlots];

  slot_t Hash(join_key_t key) const {
    join_key_t h = key ^ (key >> 7);
    h = h * 37 + 11;
    return slot_t(h.range(5, 0)) & slot_t(kSlots - 1);
  }
  bool Insert(const Tuple& tuple) {
    slot_t at = Hash(tuple.key);
    for (int probes = 0; probes < kSlots; ++probes) {
      if (!used[at]) {
        used[at] = true;
        keys[at] = tuple.key;
        payloads[at] = tuple.payload;
        return true;
      }
      at = (at + 1) % kSlots;
    }
    return false;
  }
  int Find(join_key_t key) const {
    slot_t at = Hash(key);
    for (int probes = 0; probes < kSlots; ++probes) {
      if (!used[at]) return -1;
      if (keys[at] == key) return int(at);
      at = (at + 1) % kSlots;
    }
    return -1;
  }
};

void Read(tapa::mmap<const uint64_t> tuples, int n, tapa::ostream<Tuple>& out) {
  for (int i = 0; i < n; ++i) {
    const uint64_t word = tuples[i];
    Tuple t;
    t.key = word >> 32;
    t.payload = word & 0xffffffff;
    out << t;
  }
  out.close();
}

void Join(tapa::istream<Tuple>& build, tapa::istream<Tuple>& probe, tapa::ostream<Joined>& out, tapa::ostream<uint32_t>& stats) {
  HashTable<32> table;
  for (int i = 0; i < 32; ++i) table.used[i] = false;
  uint32_t inserted = 0, missed = 0;
  TAPA_WHILE_NOT_EOT(build) {
    if (table.Insert(build.read(nullptr))) ++inserted;
  }
  build.open();
  TAPA_WHILE_NOT_EOT(probe) {
    const Tuple t = probe.read(nullptr);
    const int at = table.Find(t.key);
    if (at < 0) {
      ++missed;
      continue;
    }
    out.write(Joined{table.payloads[at], t.payload, t.key});
  }
  probe.open();
  out.close();
  stats << inserted << missed;
}

void Write(tapa::istream<Joined>& in, tapa::istream<uint32_t>& stats, tapa::mmap<uint32_t> out) {
  unsigned at = 2;
  TAPA_WHILE_NOT_EOT(in) {
    const auto j = in.read(nullptr);
    out[at++] = j.left;
    out[at++] = j.right;
    out[at++] = j.key.to_uint();
  }
  in.open();
  stats >> out[0] >> out[1];
}

void HashJoin(tapa::mmap<const uint64_t> build, tapa::mmap<const uint64_t> probe, tapa::mmap<uint32_t> out, int n_build, int n_probe) {
  tapa::stream<Tuple, 4> build_q("build_q"), probe_q("probe_q");
  tapa::stream<Joined, 4> joined("joined");
  tapa::stream<uint32_t> stats("stats");
  tapa::task().invoke(Read, build, n_build, build_q).invoke(Read, probe, n_probe, probe_q).invoke(Join, build_q, probe_q, joined, stats).invoke(Write, joined, stats, out);
}
