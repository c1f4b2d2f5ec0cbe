// Product {"scalars": {"tiles": 100}, "cells": {"a": 3200, "b": 3200, "c": 1600}}
// A systolic array of four by four cells, each with an accumulator in 64 bits: rows come from the left and columns from above, and at the end of a tile each cell's sum goes down its column.
#include <tapa.h>

const int SIDE = 4;
const int DEPTH = 8;

void Feed(tapa::mmap<const int16_t> cells, int tiles, tapa::ostream<int16_t>& s0, tapa::ostream<int16_t>& s1, tapa::ostream<int16_t>& s2, tapa::ostream<int16_t>& s3) {
  for (int k = 0; k < tiles * DEPTH; ++k) {
    int base = k * SIDE;
    s0 << cells[base];
    s1 << cells[base + 1];
    s2 << cells[base + 2];
    s3 << cells[base + 3];
  }
}

void Cell(tapa::istream<int16_t>& left, tapa::istream<int16_t>& above, tapa::istream<int64_t>& sums, int tiles, int row, tapa::ostream<int16_t>& right, tapa::ostream<int16_t>& below, tapa::ostream<int64_t>& down) {
  for (int t = 0; t < tiles; ++t) {
    int64_t sum = 0;
    for (int k = 0; k < DEPTH; ++k) {
      int16_t x = left.read();
      int16_t y = above.read();
      sum = sum + (int64_t) x * y + ((x & 1) ^ (y & 1));
      right << x;
      below << y;
    }
    for (int r = 0; r < row; ++r) { down << sums.read(); }
    down << sum;
  }
}

void Drain(tapa::istream<int16_t>& s, int tiles) {
  for (int k = 0; k < tiles * DEPTH; ++k) { s.read(); }
}

void None(tapa::ostream<int64_t>& sums) { ; }

void Collect(tapa::istream<int64_t>& s0, tapa::istream<int64_t>& s1, tapa::istream<int64_t>& s2, tapa::istream<int64_t>& s3, int tiles, tapa::mmap<int> c) {
  for (int k = 0; k < tiles * SIDE; ++k) {
    int base = k * SIDE;
    c[base] = s0.read();
    c[base + 1] = s1.read();
    c[base + 2] = s2.read();
    c[base + 3] = s3.read();
  }
}

void Product(tapa::mmap<const int16_t> a, tapa::mmap<const int16_t> b, tapa::mmap<int> c, int tiles) {
  tapa::stream<int16_t> h00, h01, h02, h03, h04;
  tapa::stream<int16_t> h10, h11, h12, h13, h14;
  tapa::stream<int16_t> h20, h21, h22, h23, h24;
  tapa::stream<int16_t> h30, h31, h32, h33, h34;
  tapa::stream<int16_t> v00, v01, v02, v03;
  tapa::stream<int16_t> v10, v11, v12, v13;
  tapa::stream<int16_t> v20, v21, v22, v23;
  tapa::stream<int16_t> v30, v31, v32, v33;
  tapa::stream<int16_t> v40, v41, v42, v43;
  tapa::stream<int64_t, 4> d00, d01, d02, d03;
  tapa::stream<int64_t, 4> d10, d11, d12, d13;
  tapa::stream<int64_t, 4> d20, d21, d22, d23;
  tapa::stream<int64_t, 4> d30, d31, d32, d33;
  tapa::stream<int64_t, 4> d40, d41, d42, d43;
  tapa::task()
    .invoke(Feed, a, tiles, h00, h10, h20, h30)
    .invoke(Feed, b, tiles, v00, v01, v02, v03)
    .invoke(None, d00)
    .invoke(None, d01)
    .invoke(None, d02)
    .invoke(None, d03)
    .invoke(Cell, h00, v00, d00, tiles, 0, h01, v10, d10)
    .invoke(Cell, h01, v01, d01, tiles, 0, h02, v11, d11)
    .invoke(Cell, h02, v02, d02, tiles, 0, h03, v12, d12)
    .invoke(Cell, h03, v03, d03, tiles, 0, h04, v13, d13)
    .invoke(Cell, h10, v10, d10, tiles, 1, h11, v20, d20)
    .invoke(Cell, h11, v11, d11, tiles, 1, h12, v21, d21)
    .invoke(Cell, h12, v12, d12, tiles, 1, h13, v22, d22)
    .invoke(Cell, h13, v13, d13, tiles, 1, h14, v23, d23)
    .invoke(Cell, h20, v20, d20, tiles, 2, h21, v30, d30)
    .invoke(Cell, h21, v21, d21, tiles, 2, h22, v31, d31)
    .invoke(Cell, h22, v22, d22, tiles, 2, h23, v32, d32)
    .invoke(Cell, h23, v23, d23, tiles, 2, h24, v33, d33)
    .invoke(Cell, h30, v30, d30, tiles, 3, h31, v40, d40)
    .invoke(Cell, h31, v31, d31, tiles, 3, h32, v41, d41)
    .invoke(Cell, h32, v32, d32, tiles, 3, h33, v42, d42)
    .invoke(Cell, h33, v33, d33, tiles, 3, h34, v43, d43)
    .invoke(Drain, h04, tiles)
    .invoke(Drain, h14, tiles)
    .invoke(Drain, h24, tiles)
    .invoke(Drain, h34, tiles)
    .invoke(Drain, v40, tiles)
    .invoke(Drain, v41, tiles)
    .invoke(Drain, v42, tiles)
    .invoke(Drain, v43, tiles)
    .invoke(Collect, d40, d41, d42, d43, tiles, c);
}
