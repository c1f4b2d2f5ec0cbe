// The product of a sparse matrix and a vector by hand: an element is a word with its row, its column from bit 16 and its value from bit 32 on.
#include <tapa.h>

void ReadA(tapa::mmap<uint64_t> first, tapa::mmap<uint64_t> second, int len, tapa::ostream<uint64_t>& out0, tapa::ostream<uint64_t>& out1) {
  for (int i = 0; i < len; ++i) {
    out0 << first[i];
    out1 << second[i];
  }
}

void ReadX(tapa::mmap<const int> x, int cols, tapa::ostream<int>& out0, tapa::ostream<int>& out1) {
  for (int i = 0; i < cols; ++i) {
    int value = x[i];
    out0 << value;
    out1 << value;
  }
}

void Core(int len, int cols, tapa::istream<int>& x, tapa::istream<uint64_t>& a0, tapa::istream<uint64_t>& a1, tapa::ostream<int64_t>& y) {
  int local_x[32];
  int64_t local_y[16];
  for (int i = 0; i < cols; ++i) { local_x[i] = x.read(); }
  for (int i = 0; i < len; ++i) {
    uint64_t e = a0.read();
    if (e >> 32 != 0) { local_y[e & 15] += (int64_t) (int) (e >> 32) * local_x[e >> 16 & 31]; }
    e = a1.read();
    if (e >> 32 != 0) { local_y[e & 15] += (int64_t) (int) (e >> 32) * local_x[e >> 16 & 31]; }
  }
  for (int i = 0; i < 16; ++i) { y << local_y[i]; }
}

void WriteY(int alpha, int beta, tapa::istream<int64_t>& y0, tapa::istream<int64_t>& y1, tapa::mmap<int64_t> y) {
  for (int i = 0; i < 16; ++i) {
    y[2 * i] = alpha * y0.read() + beta * y[2 * i];
    y[2 * i + 1] = alpha * y1.read() + beta * y[2 * i + 1];
  }
}

void Spmv(tapa::mmap<uint64_t> A_0_0, tapa::mmap<uint64_t> A_0_1, tapa::mmap<uint64_t> A_1_0, tapa::mmap<uint64_t> A_1_1, tapa::mmap<const int> X, tapa::mmap<int64_t> Y, int len, int cols, int alpha, int beta) {
  tapa::streams<uint64_t, 2, 4> a0("a0"), a1("a1");
  tapa::streams<int, 2, 4> x("x");
  tapa::streams<int64_t, 2, 4> y("y");
  tapa::task()
      .invoke(ReadA, A_0_0, A_0_1, len, a0[0], a1[0])
      .invoke(ReadA, A_1_0, A_1_1, len, a0[1], a1[1])
      .invoke(ReadX, X, cols, x[0], x[1])
      .invoke<tapa::join, 2>(Core, len, cols, x, a0, a1, y)
      .invoke(WriteY, alpha, beta, y[0], y[1], Y);
}
