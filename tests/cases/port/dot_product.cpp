// Dot products of floats by vectors of lanes, with partial sums that rotate; the result in fixed point.
#include <tapa.h>

constexpr int kVec = 4;
constexpr int kPartial = 4;
using float_v = tapa::vec_t<float, kVec>;

void Load(tapa::async_mmap<float_v>& mem, int n, tapa::ostream<float_v>& out) {
  for (int i_req = 0, i_resp = 0; i_resp < n;) {
    if (i_req < n && mem.read_addr.try_write(i_req)) ++i_req;
    float_v v;
    if (mem.read_data.try_read(v)) {
      out << v;
      ++i_resp;
    }
  }
}

void Multiply(int n, tapa::istream<float_v>& a, tapa::istream<float_v>& b, tapa::ostream<float>& out) {
  for (int i = 0; i < n; ++i) {
#pragma HLS pipeline II = 1
    const float_v p = a.read() * b.read();
    float sum = 0.0f;
    for (int j = 0; j < kVec; ++j) sum += p[j];
    out << sum;
  }
}

void Accumulate(int n, float scale, tapa::istream<float>& in, tapa::mmap<float> result) {
  float partial[kPartial] = {};
  for (int i = 0; i < n; ++i) partial[i % kPartial] += in.read();
  float total = 0;
  for (float p : partial) total += p;
  result[0] = total;
  result[1] = total * scale;
  result[2] = total > 0 ? total : -total;
}

void DotProduct(tapa::mmap<float_v> x, tapa::mmap<float_v> y, tapa::mmap<float> result, int n, float scale) {
  tapa::stream<float_v, 4> a("a"), b("b");
  tapa::stream<float, 4> products("products");
  tapa::task().invoke(Load, x, n, a).invoke(Load, y, n, b).invoke(Multiply, n, a, b, products).invoke(Accumulate, n, scale, products, result);
}
