// tapa run examples/merge_tree.cpp MergeTree examples/merge_tree.json
// A merge tree: four sorted lists become one. Look at `Merge`, which peeks at both inputs and takes the smaller one, and
// which knows that a list is over by the end of its transaction (`eot`); and at `Half`, a task of two levels that is
// invoked twice, so that its streams and tasks appear twice in the report, each under its own label.
#include <tapa.h>

void Load(tapa::mmap<const int> list, uint64_t n, tapa::ostream<int>& out) {
  for (uint64_t i = 0; i < n; ++i) { out << list[i]; }
  out.close();
}

void Merge(tapa::istream<int>& a, tapa::istream<int>& b, tapa::ostream<int>& out) {
  while (true) {
    bool a_over = a.eot(nullptr);
    bool b_over = b.eot(nullptr);
    if (a_over && b_over) break;
    if (a_over) { out << b.read(); }
    else if (b_over) { out << a.read(); }
    else {
      int x = a.peek(nullptr);
      int y = b.peek(nullptr);
      if (x <= y) { out << a.read(); } else { out << b.read(); }
    }
  }
  a.open();
  b.open();
  out.close();
}

void Half(tapa::mmap<const int> left, tapa::mmap<const int> right, uint64_t n, tapa::ostream<int>& out) {
  tapa::stream<int> l("l");
  tapa::stream<int> r("r");
  tapa::task().invoke(Load, left, n, l).invoke(Load, right, n, r).invoke(Merge, l, r, out);
}

void Store(tapa::istream<int>& in, tapa::mmap<int> sorted) {
  uint64_t i = 0;
  TAPA_WHILE_NOT_EOT(in) { in >> sorted[i]; ++i; }
  in.open();
}

void MergeTree(tapa::mmap<const int> a, tapa::mmap<const int> b, tapa::mmap<const int> c, tapa::mmap<const int> d,
               tapa::mmap<int> sorted, uint64_t n) {
  tapa::stream<int> ab("ab");
  tapa::stream<int> cd("cd");
  tapa::stream<int> all("all");
  tapa::task()
    .invoke(Half, a, b, n, ab)
    .invoke(Half, c, d, n, cd)
    .invoke(Merge, ab, cd, all)
    .invoke(Store, all, sorted);
}
