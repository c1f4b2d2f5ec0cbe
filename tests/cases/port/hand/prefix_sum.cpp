// The prefix sum by hand: four lanes, a tree of three adders, and a loop for each lane at both ends.
#include <tapa.h>

void Scatter(tapa::mmap<const uint32_t> in, int per_lane, tapa::ostream<uint32_t>& lane0, tapa::ostream<uint32_t>& lane1, tapa::ostream<uint32_t>& lane2, tapa::ostream<uint32_t>& lane3) {
  for (int i = 0; i < per_lane; ++i) { lane0 << in[i]; }
  lane0.close();
  for (int i = 0; i < per_lane; ++i) { lane1 << in[per_lane + i]; }
  lane1.close();
  for (int i = 0; i < per_lane; ++i) { lane2 << in[2 * per_lane + i]; }
  lane2.close();
  for (int i = 0; i < per_lane; ++i) { lane3 << in[3 * per_lane + i]; }
  lane3.close();
}

void Lane(tapa::istream<uint32_t>& in, tapa::ostream<uint64_t>& total, tapa::istream<uint64_t>& offset, tapa::ostream<uint64_t>& out) {
  uint32_t kept[16];
  int count = 0;
  uint64_t sum = 0;
  while (!in.eot(nullptr)) {
    kept[count] = in.read();
    sum += kept[count];
    ++count;
  }
  in.open();
  total << sum;
  sum = offset.read();
  for (int i = 0; i < count; ++i) {
    sum += kept[i];
    out << sum;
  }
  out.close();
}

void Add(tapa::istream<uint64_t>& a, tapa::istream<uint64_t>& b, tapa::ostream<uint64_t>& up, tapa::istream<uint64_t>& down, tapa::ostream<uint64_t>& a_down, tapa::ostream<uint64_t>& b_down) {
  uint64_t left = a.read();
  up << left + b.read();
  uint64_t base = down.read();
  a_down << base;
  b_down << base + left;
}

void Root(tapa::istream<uint64_t>& up, tapa::ostream<uint64_t>& down, tapa::mmap<uint64_t> total) {
  down << 0;
  total[0] = up.read();
}

void Gather(tapa::istream<uint64_t>& lane0, tapa::istream<uint64_t>& lane1, tapa::istream<uint64_t>& lane2, tapa::istream<uint64_t>& lane3, tapa::mmap<uint64_t> out) {
  int at = 0;
  for (; !lane0.eot(nullptr); ++at) { out[at] = lane0.read(); }
  lane0.open();
  for (; !lane1.eot(nullptr); ++at) { out[at] = lane1.read(); }
  lane1.open();
  for (; !lane2.eot(nullptr); ++at) { out[at] = lane2.read(); }
  lane2.open();
  for (; !lane3.eot(nullptr); ++at) { out[at] = lane3.read(); }
  lane3.open();
}

void PrefixSum(tapa::mmap<const uint32_t> in, tapa::mmap<uint64_t> out, tapa::mmap<uint64_t> total, int per_lane) {
  tapa::streams<uint32_t, 4, 4> values("values");
  tapa::streams<uint64_t, 4> totals("totals"), offsets("offsets");
  tapa::streams<uint64_t, 4, 16> sums("sums");
  tapa::streams<uint64_t, 2> half_up("half_up"), half_down("half_down");
  tapa::stream<uint64_t> root_up("root_up"), root_down("root_down");
  tapa::task()
      .invoke(Scatter, in, per_lane, values[0], values[1], values[2], values[3])
      .invoke<tapa::join, 4>(Lane, values, totals, offsets, sums)
      .invoke(Add, totals[0], totals[1], half_up[0], half_down[0], offsets[0], offsets[1])
      .invoke(Add, totals[2], totals[3], half_up[1], half_down[1], offsets[2], offsets[3])
      .invoke(Add, half_up[0], half_up[1], root_up, root_down, half_down[0], half_down[1])
      .invoke(Root, root_up, root_down, total)
      .invoke(Gather, sums[0], sums[1], sums[2], sums[3], out);
}
