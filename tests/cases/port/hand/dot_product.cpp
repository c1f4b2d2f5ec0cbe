// The dot product by hand, with 8 bits after the point: two lanes of 32 bits in a word, and two words for a vector.
#include <tapa.h>

void Load(tapa::mmap<uint64_t> first, tapa::mmap<uint64_t> second, int n, tapa::ostream<uint64_t>& out0, tapa::ostream<uint64_t>& out1) {
  for (int i = 0; i < n; ++i) {
    out0 << first[i];
    out1 << second[i];
  }
}

void Multiply(int n, tapa::istream<uint64_t>& a0, tapa::istream<uint64_t>& a1, tapa::istream<uint64_t>& b0, tapa::istream<uint64_t>& b1, tapa::ostream<int>& out) {
  for (int i = 0; i < n; ++i) {
    uint64_t x = a0.read(), y = b0.read();
    uint64_t u = a1.read(), v = b1.read();
    out << (int) ((int64_t) (int) x * (int) y >> 8) + (int) ((int64_t) (int) (x >> 32) * (int) (y >> 32) >> 8) + (int) ((int64_t) (int) u * (int) v >> 8) + (int) ((int64_t) (int) (u >> 32) * (int) (v >> 32) >> 8);
  }
}

void Accumulate(int n, int scale, tapa::istream<int>& in, tapa::mmap<int> result) {
  int partial[4];
  for (int i = 0; i < n; ++i) { partial[i & 3] += in.read(); }
  int total = partial[0] + partial[1] + partial[2] + partial[3];
  result[0] = total;
  result[1] = (int) ((int64_t) total * scale >> 8);
  result[2] = total > 0 ? total : -total;
}

void DotProduct(tapa::mmap<uint64_t> x_0, tapa::mmap<uint64_t> x_1, tapa::mmap<uint64_t> y_0, tapa::mmap<uint64_t> y_1, tapa::mmap<int> result, int n, int scale) {
  tapa::stream<uint64_t, 4> a0("a0"), a1("a1"), b0("b0"), b1("b1");
  tapa::stream<int, 4> products("products");
  tapa::task().invoke(Load, x_0, x_1, n, a0, a1).invoke(Load, y_0, y_1, n, b0, b1).invoke(Multiply, n, a0, a1, b0, b1, products).invoke(Accumulate, n, scale, products, result);
}
