// A bitonic network on vectors of eight lanes: each stage is a task of one template, whose comparators are constant.
#include <tapa.h>

constexpr int kLanes = 8;
using Vec = tapa::vec_t<uint16_t, kLanes>;

template <int block, int distance>
void Stage(tapa::istream<Vec>& in, tapa::ostream<Vec>& out) {
  TAPA_WHILE_NOT_EOT(in) {
#pragma HLS pipeline II = 1
    Vec v = in.read(nullptr);
    for (int i = 0; i < kLanes; ++i) {
#pragma HLS unroll
      const int other = i ^ distance;
      if (other > i) {
        const bool up = (i & block) == 0;
        const auto low = v[i] < v[other] ? v[i] : v[other];
        const auto high = v[i] < v[other] ? v[other] : v[i];
        v[i] = up ? low : high;
        v[other] = up ? high : low;
      }
    }
    out.write(v);
  }
  in.open();
  out.close();
}

void Load(tapa::mmap<const Vec> mem, uint32_t n, tapa::ostream<Vec>& out) {
  for (uint32_t i = 0; i < n; ++i) out << mem[i];
  out.close();
}

void Save(tapa::istream<Vec>& in, tapa::mmap<Vec> mem, uint32_t n) {
  for (uint32_t i = 0; i < n; ++i) in >> mem[i];
  in.open();
}

void Bitonic(tapa::mmap<const Vec> in, tapa::mmap<Vec> out, uint32_t n) {
  tapa::stream<Vec, 2> s0, s1, s2, s3, s4, s5, s6;
  tapa::task()
      .invoke(Load, in, n, s0)
      .invoke(Stage<2, 1>, s0, s1)
      .invoke(Stage<4, 2>, s1, s2)
      .invoke(Stage<4, 1>, s2, s3)
      .invoke(Stage<8, 4>, s3, s4)
      .invoke(Stage<8, 2>, s4, s5)
      .invoke(Stage<8, 1>, s5, s6)
      .invoke(Save, s6, out, n);
}
