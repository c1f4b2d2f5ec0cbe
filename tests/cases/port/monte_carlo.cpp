// Points in a circle, counted by generators with seeds of their own: shift registers of ap_uint, a template over the seed, a reduction.
#include <ap_int.h>
#include <tapa.h>

constexpr int kGenerators = 3;
constexpr int kBits = 10;

class Lfsr {
 public:
  explicit Lfsr(ap_uint<32> seed) : state_(seed) {}
  ap_uint<kBits> Next() {
    for (int i = 0; i < kBits; ++i) {
      const bool tap = state_[0] ^ state_[1] ^ state_[21] ^ state_[31];
      state_ = (state_ >> 1) | (ap_uint<32>(tap) << 31);
    }
    return state_.range(kBits - 1, 0);
  }

 private:
  ap_uint<32> state_;
};

template <unsigned seed>
void Generate(int n, tapa::ostream<uint32_t>& points) {
  Lfsr lfsr(seed);
  for (int i = 0; i < n; ++i) {
    const ap_uint<kBits> x = lfsr.Next();
    const ap_uint<kBits> y = lfsr.Next();
    points.write((uint32_t(x) << 16) | uint32_t(y));
  }
  points.close();
}

void Count(tapa::istream<uint32_t>& points, tapa::ostream<int>& hits) {
  int inside = 0;
  TAPA_WHILE_NOT_EOT(points) {
    const uint32_t p = points.read(nullptr);
    const ap_uint<kBits> x = p >> 16, y = p & 0xffff;
    const ap_uint<2 * kBits> xx = x * x, yy = y * y;
    if (xx + yy < (1 << (2 * kBits))) inside++;
  }
  points.open();
  hits << inside;
}

void Sum(tapa::istreams<int, kGenerators>& hits, tapa::mmap<int> out) {
  int all = 0;
  for (int i = 0; i < kGenerators; ++i) {
    const int h = hits[i].read();
    out[i] = h;
    all += h;
  }
  out[kGenerators] = all;
}

void MonteCarlo(tapa::mmap<int> out, int n) {
  tapa::streams<uint32_t, kGenerators, 4> points("points");
  tapa::streams<int, kGenerators> hits("hits");
  tapa::task()
      .invoke(Generate<0xdeadbeefu>, n, points[0])
      .invoke(Generate<12345u>, n, points[1])
      .invoke(Generate<77u>, n, points[2])
      .invoke<tapa::join, kGenerators>(Count, points, hits)
      .invoke(Sum, hits, out);
}
