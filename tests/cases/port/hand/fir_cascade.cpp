// The cascade of filters by hand: the last values are variables, and each filter is one expression.
#include <tapa.h>

void Smooth(tapa::istream<int>& in, tapa::ostream<int>& out) {
  int x0, x1, x2;
  while (!in.eot(nullptr)) {
    x2 = x1;
    x1 = x0;
    x0 = in.read();
    out << (x0 + 2 * x1 + x2 >> 2);
  }
  in.open();
  out.close();
}

void Differ(tapa::istream<int>& in, tapa::ostream<int>& out) {
  int x0, x1;
  while (!in.eot(nullptr)) {
    x1 = x0;
    x0 = in.read();
    out << x0 - x1;
  }
  in.open();
  out.close();
}

void Shape(tapa::istream<int>& in, tapa::ostream<int>& out) {
  int x0, x1, x2, x3, x4;
  while (!in.eot(nullptr)) {
    x4 = x3;
    x3 = x2;
    x2 = x1;
    x1 = x0;
    x0 = in.read();
    out << (x0 + 3 * x1 + 3 * x2 + x3 - 2 * x4) / 6;
  }
  in.open();
  out.close();
}

void Source(tapa::mmap<const int> m, uint64_t n, tapa::ostream<int>& out) {
  for (uint64_t i = 0; i < n; ++i) { out << m[i]; }
  out.close();
}

void Sink(tapa::istream<int>& in, tapa::mmap<int> m) {
  for (uint64_t i = 0; !in.eot(nullptr); ++i) { m[i] = in.read(); }
  in.open();
}

void Cascade(tapa::mmap<const int> in, tapa::mmap<int> out, uint64_t n) {
  tapa::stream<int> a("a"), b("b"), c("c"), d("d");
  tapa::task().invoke(Source, in, n, a).invoke(Smooth, a, b).invoke(Differ, b, c).invoke(Shape, c, d).invoke(Sink, d, out);
}
