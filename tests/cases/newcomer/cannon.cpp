#include <tapa.h>

// A product of two matrices of 4 by 4 cells on a square of p by p elements (Cannon's algorithm).
constexpr int p = 2;
const int kN = 4;
#define BLOCK (kN / p)

static void Scatter(tapa::mmap<const int> matrix, tapa::ostreams<int, p * p>& block) {
  for (int i = 0; i < p; ++i)
    for (int j = 0; j < p; ++j)
      for (int ii = 0; ii < BLOCK; ++ii)
        for (int jj = 0; jj < BLOCK; ++jj) block[i * p + j].write(matrix[(i * BLOCK + ii) * kN + j * BLOCK + jj]);
}

static void Gather(tapa::mmap<int> matrix, tapa::istreams<int, p * p>& block) {
  for (int i = 0; i < p; ++i)
    for (int j = 0; j < p; ++j)
      for (int ii = 0; ii < BLOCK; ++ii)
        for (int jj = 0; jj < BLOCK; ++jj) matrix[(i * BLOCK + ii) * kN + j * BLOCK + jj] = block[i * p + j].read();
}

void Element(tapa::istream<int>& a_fifo, tapa::istream<int>& b_fifo, tapa::ostream<int>& c_fifo,
             tapa::ostream<int>& i_next, tapa::istream<int>& i_prev, tapa::ostream<int>& j_next, tapa::istream<int>& j_prev) {
  int a[BLOCK * BLOCK], b[BLOCK * BLOCK], c[BLOCK * BLOCK] = {};
load:
  for (int i = 0; i < BLOCK * BLOCK; ++i) {
    a[i] = a_fifo.read();
    b[i] = b_fifo.read();
  }
  for (int l = 0; l < p; ++l) {
    for (int i = 0; i < BLOCK; ++i)
      for (int j = 0; j < BLOCK; ++j)
        for (int k = 0; k < BLOCK; ++k) c[i * BLOCK + j] += a[i * BLOCK + k] * b[k * BLOCK + j];
    for (int i = 0; i < BLOCK * BLOCK; ++i) {
      j_next.write(a[i]);
      i_next.write(b[i]);
      a[i] = j_prev.read();
      b[i] = i_prev.read();
    }
  }
  for (int i = 0; i < BLOCK * BLOCK; ++i) c_fifo << c[i];
}

void Cannon(tapa::mmap<const int> a_vec, tapa::mmap<const int> b_vec, tapa::mmap<int> c_vec) {
  tapa::streams<int, p * p, 4> a("a"), b("b");
  tapa::streams<int, p * p> c("c");
  tapa::streams<int, p * p, BLOCK * BLOCK> right("right"), down("down");
  tapa::task()
      .invoke(Scatter, a_vec, a)
      .invoke(Scatter, b_vec, b)
      .invoke(Element, a[0], b[0], c[0], down[0], down[2], right[0], right[1])
      .invoke(Element, a[1], b[3], c[1], down[1], down[3], right[1], right[0])
      .invoke(Element, a[3], b[2], c[2], down[2], down[0], right[2], right[3])
      .invoke(Element, a[2], b[1], c[3], down[3], down[1], right[3], right[2])
      .invoke(Gather, c_vec, c);
}
