// tapa run examples/stencil.cpp Stencil1D examples/stencil.json
// A one-dimensional stencil: each output is the weighted sum of three neighbours. Look at the array `line`, a line buffer
// that keeps the last three inputs so that every cell is loaded once; at the first two turns, which fill it and write
// nothing; and at the file's constants, with which the window's size is spelled once.
#include <tapa.h>

const int WINDOW = 3;
const int CENTRE = 2;

void Load(tapa::mmap<const int> cells, uint64_t n, tapa::ostream<int>& in) {
  for (uint64_t i = 0; i < n; ++i) { in << cells[i]; }
}

void Stencil(tapa::istream<int>& in, uint64_t n, tapa::ostream<int>& out) {
  int line[WINDOW];
  for (uint64_t i = 0; i < n; ++i) {
    for (int k = 0; k < WINDOW - 1; ++k) { line[k] = line[k + 1]; }
    in >> line[WINDOW - 1];
    if (i >= WINDOW - 1) { out << line[0] + CENTRE * line[1] + line[2]; }
  }
}

void Store(tapa::istream<int>& out, uint64_t n, tapa::mmap<int> sums) {
  for (uint64_t i = 0; i + WINDOW - 1 < n; ++i) { out >> sums[i]; }
}

void Stencil1D(tapa::mmap<const int> cells, tapa::mmap<int> sums, uint64_t n) {
  tapa::stream<int> in("in");
  tapa::stream<int> out("out");
  tapa::task().invoke(Load, cells, n, in).invoke(Stencil, in, n, out).invoke(Store, out, n, sums);
}
