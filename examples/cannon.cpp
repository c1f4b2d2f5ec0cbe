// tapa run examples/cannon.cpp Cannon examples/cannon.json
// Cannon's product of two 4 by 4 matrices on a torus of 2 by 2 cells, each with a block of 2 by 2. In each step a cell
// multiplies its blocks, hands the one of `a` to the cell on its left and the one of `b` to that above, and takes what comes
// from the right and from below. Look at the depth of `a_ring` and `b_ring`: a cell writes a whole block before it reads
// one, so with a depth below CELLS all of them wait for each other.
#include <tapa.h>

const int P = 2;       // cells in a row of the torus
const int BLOCK = 2;   // rows of a block
const int N = 4;       // rows of a matrix
const int CELLS = 4;   // numbers in a block, and cells in the torus

// Deals the blocks of a matrix: cell k gets the one in row `k / P` of blocks, moved by as many places as Cannon's start asks.
void Deal(tapa::mmap<const int> m, const bool by_rows, tapa::ostream<int>& q_0, tapa::ostream<int>& q_1,
          tapa::ostream<int>& q_2, tapa::ostream<int>& q_3) {
  for (int k = 0; k < CELLS; ++k) {
    int row = k >> 1;
    int column = k & 1;
    if (by_rows) { column = (column + row) & 1; } else { row = (row + column) & 1; }
    for (int i = 0; i < CELLS; ++i) {
      int x = m[(row * BLOCK + (i >> 1)) * N + column * BLOCK + (i & 1)];
      if (k == 0) { q_0 << x; }
      else if (k == 1) { q_1 << x; }
      else if (k == 2) { q_2 << x; }
      else { q_3 << x; }
    }
  }
}

void Cell(tapa::istream<int>& a_first, tapa::istream<int>& b_first, tapa::istream<int>& a_right, tapa::istream<int>& b_below,
          tapa::ostream<int>& a_left, tapa::ostream<int>& b_above, tapa::ostream<int>& sums) {
  int a[CELLS];
  int b[CELLS];
  int c[CELLS];
  for (int i = 0; i < CELLS; ++i) { a_first >> a[i]; b_first >> b[i]; }
  for (int step = 0; step < P; ++step) {
    for (int i = 0; i < CELLS; ++i) { c[i] += a[i & 2] * b[i & 1] + a[(i & 2) + 1] * b[(i & 1) + 2]; }
    for (int i = 0; i < CELLS; ++i) { a_left << a[i]; b_above << b[i]; }
    for (int i = 0; i < CELLS; ++i) { a_right >> a[i]; b_below >> b[i]; }
  }
  for (int i = 0; i < CELLS; ++i) { sums << c[i]; }
}

void Collect(tapa::istream<int>& q_0, tapa::istream<int>& q_1, tapa::istream<int>& q_2, tapa::istream<int>& q_3,
             tapa::mmap<int> c) {
  for (int i = 0; i < CELLS; ++i) {
    int at = (i >> 1) * N + (i & 1);
    q_0 >> c[at];
    q_1 >> c[at + BLOCK];
    q_2 >> c[at + BLOCK * N];
    q_3 >> c[at + BLOCK * N + BLOCK];
  }
}

void Cannon(tapa::mmap<const int> a, tapa::mmap<const int> b, tapa::mmap<int> c) {
  tapa::streams<int, CELLS> a_first("a_first"), b_first("b_first"), sums("sums");
  tapa::streams<int, CELLS, CELLS> a_ring("a_ring"), b_ring("b_ring");   // what cell k hands to the left, and above
  tapa::task()
    .invoke(Deal, a, true, a_first[0], a_first[1], a_first[2], a_first[3])
    .invoke(Deal, b, false, b_first[0], b_first[1], b_first[2], b_first[3])
    .invoke(Cell, a_first[0], b_first[0], a_ring[1], b_ring[2], a_ring[0], b_ring[0], sums[0])
    .invoke(Cell, a_first[1], b_first[1], a_ring[0], b_ring[3], a_ring[1], b_ring[1], sums[1])
    .invoke(Cell, a_first[2], b_first[2], a_ring[3], b_ring[0], a_ring[2], b_ring[2], sums[2])
    .invoke(Cell, a_first[3], b_first[3], a_ring[2], b_ring[1], a_ring[3], b_ring[3], sums[3])
    .invoke(Collect, sums[0], sums[1], sums[2], sums[3], c);
}
