#include <algorithm>
#include <tapa.h>

constexpr auto kWidth = 4;
static constexpr int kHeight = 4;
constexpr int kCells() { return kWidth * kHeight; }

// The mean of a cell and its neighbours, by shifts.
inline int Mean(int c, int l, int r, int u, int d) { return (4 * c + l + r + u + d) >> 3; }

void Load(tapa::mmap<const int> cells, tapa::ostream<int>& out) {
  for (int i = 0; i < kCells(); ++i) out.write(cells[i]);
}

void Stencil(tapa::istream<int>& in, tapa::ostream<int>& out) {
  int line[2 * kWidth + 1] = {};
  for (int i = 0; i < kCells() + kWidth; ++i) {
    for (int j = 2 * kWidth; j > 0; --j) line[j] = line[j - 1];
    line[0] = 0;
    if (i < kCells()) line[0] = in.read();
    if (i < kWidth) continue;
    int const x = (i - kWidth) % kWidth;
    int left = x == 0 ? 0 : line[kWidth + 1];
    int right = x == kWidth - 1 ? 0 : line[kWidth - 1];
    int cell = Mean(line[kWidth], left, right, line[2 * kWidth], line[0]);
    out << std::max(cell, 0);
  }
}

void Store(tapa::istream<int>& in, tapa::mmap<int> cells) {
  for (int i = 0; i < kCells(); ++i) cells[i] = in.read();
}

void Jacobi(tapa::mmap<const int> from, tapa::mmap<int> to) {
  tapa::stream<int, 8> in{"in"}, out{"out"};
  tapa::task().invoke(Load, from, in).invoke(Stencil, in, out).invoke(Store, out, to);
}
