// A prefix sum by lanes: local sums, a tree of adders as nested upper-level tasks, and offsets that go back to the lanes.
#include <tapa.h>

template <int kLanes>
void Scatter(tapa::mmap<const uint32_t> in, int per_lane, tapa::ostreams<uint32_t, kLanes>& out) {
  for (int lane = 0; lane < kLanes; ++lane) {
    for (int i = 0; i < per_lane; ++i) out[lane].write(in[lane * per_lane + i]);
    out[lane].close();
  }
}

// Sums of one lane: first the total, and behind the offset all sums.
void Lane(tapa::istream<uint32_t>& in, tapa::ostream<uint64_t>& total, tapa::istream<uint64_t>& offset, tapa::ostream<uint64_t>& out) {
  uint32_t kept[16];
  int count = 0;
  uint64_t sum = 0;
  for (; !in.eot(nullptr); ++count) {
    kept[count] = in.read(nullptr);
    sum += kept[count];
  }
  in.open();
  total << sum;
  sum = offset.read();
  for (int i = 0; i < count; ++i) {
    sum += kept[i];
    out << sum;
  }
  out.close();
}

void Add(tapa::istream<uint64_t>& a, tapa::istream<uint64_t>& b, tapa::ostream<uint64_t>& up, tapa::istream<uint64_t>& down, tapa::ostream<uint64_t>& a_down, tapa::ostream<uint64_t>& b_down) {
  const auto left = a.read(), right = b.read();
  up << left + right;
  const auto base = down.read();
  a_down << base;
  b_down << base + left;
}

void Root(tapa::istream<uint64_t>& up, tapa::ostream<uint64_t>& down, tapa::mmap<uint64_t> total) {
  down << uint64_t{0};
  total[0] = up.read();
}

void Tree(tapa::istreams<uint64_t, 4>& up, tapa::ostreams<uint64_t, 4>& down, tapa::mmap<uint64_t> total) {
  tapa::streams<uint64_t, 2> half_up, half_down;
  tapa::stream<uint64_t> root_up, root_down;
  tapa::task()
      .invoke(Add, up[0], up[1], half_up[0], half_down[0], down[0], down[1])
      .invoke(Add, up[2], up[3], half_up[1], half_down[1], down[2], down[3])
      .invoke(Add, half_up[0], half_up[1], root_up, root_down, half_down[0], half_down[1])
      .invoke(Root, root_up, root_down, total);
}

template <int kLanes>
void Gather(tapa::istreams<uint64_t, kLanes>& in, tapa::mmap<uint64_t> out) {
  int at = 0;
  for (int lane = 0; lane < kLanes; ++lane) {
    TAPA_WHILE_NOT_EOT(in[lane]) { out[at++] = in[lane].read(nullptr); }
    in[lane].open();
  }
}

void PrefixSum(tapa::mmap<const uint32_t> in, tapa::mmap<uint64_t> out, tapa::mmap<uint64_t> total, int per_lane) {
  constexpr int kLanes = 4;
  tapa::streams<uint32_t, kLanes, 4> values("values");
  tapa::streams<uint64_t, kLanes> totals("totals"), offsets("offsets");
  tapa::streams<uint64_t, kLanes, 16> sums("sums");
  tapa::task()
      .invoke(Scatter<kLanes>, in, per_lane, values)
      .invoke<tapa::join, kLanes>(Lane, values, totals, offsets, sums)
      .invoke(Tree, totals, offsets, total)
      .invoke(Gather<kLanes>, sums, out);
}
