// A sort by a tree of merges: runs of one value each, then levels that merge two streams, by templates and counted invokes.
#include <tapa.h>

constexpr int kLeaves = 4;
constexpr int kMax = 0x7fffffff;

void Deal(tapa::mmap<const int> mem, int n, tapa::ostreams<int, kLeaves>& out) {
  for (int leaf = 0; leaf < kLeaves; ++leaf) {
    // selection of the least that is left, per quarter: small runs that are sorted
    int run[8];
    int count = 0;
    for (int i = leaf; i < n; i += kLeaves) {
      int x = mem[i], at = count;
      for (; at > 0 && run[at - 1] > x; --at) run[at] = run[at - 1];
      run[at] = x;
      ++count;
    }
    for (int i = 0; i < count; ++i) out[leaf].write(run[i]);
    out[leaf].close();
  }
}

template <typename T>
void MergeTwo(tapa::istream<T>& a, tapa::istream<T>& b, tapa::ostream<T>& out) {
  bool a_valid = false, b_valid = false;
  bool a_end = false, b_end = false;
  T x, y;
  while (true) {
    if (!a_valid && !a_end) {
      if (a.eot(nullptr)) {
        a_end = true;
      } else {
        x = a.read(nullptr);
        a_valid = true;
      }
    }
    if (!b_valid && !b_end) {
      if (b.eot(nullptr)) {
        b_end = true;
      } else {
        y = b.read(nullptr);
        b_valid = true;
      }
    }
    if (!a_valid && !b_valid) break;
    if (!b_valid || (a_valid && x <= y)) {
      out.write(x);
      a_valid = false;
    } else {
      out.write(y);
      b_valid = false;
    }
  }
  a.open();
  b.open();
  out.close();
}

void Level(tapa::istreams<int, kLeaves>& in, tapa::ostreams<int, kLeaves / 2>& out) {
  tapa::task().invoke(MergeTwo<int>, in[0], in[1], out[0]).invoke(MergeTwo<int>, in[2], in[3], out[1]);
}

void Collect(tapa::istream<int>& in, tapa::mmap<int> mem) {
  int i = 0;
  for (; !in.eot(nullptr); ++i) mem[i] = in.read(nullptr);
  in.open();
  mem[i] = kMax;
}

void MergeSort(tapa::mmap<const int> from, tapa::mmap<int> to, int n) {
  tapa::streams<int, kLeaves, 8> leaves("leaves");
  tapa::streams<int, kLeaves / 2, 8> halves("halves");
  tapa::stream<int, 8> sorted("sorted");
  tapa::task().invoke(Deal, from, n, leaves).invoke(Level, leaves, halves).invoke(MergeTwo<int>, halves[0], halves[1], sorted).invoke(Collect, sorted, to);
}
