// tapa run examples/lanes.cpp Squares examples/lanes.json
// Four workers of one kind. An array of streams has an element for each of them, and one line with a count invokes them all:
// the k-th worker gets the k-th element of each array. Look at the report, where the elements are the streams `in_0` to
// `in_3`; and at examples/fork_join.cpp, where each stream and each worker has a line of its own.
#include <tapa.h>

const int LANES = 4;

void Deal(tapa::mmap<const int> from, uint64_t n, tapa::ostream<int>& a, tapa::ostream<int>& b, tapa::ostream<int>& c,
          tapa::ostream<int>& d) {
  for (uint64_t i = 0; i < n; ++i) {
    if (i % LANES == 0) { a << from[i]; }
    else if (i % LANES == 1) { b << from[i]; }
    else if (i % LANES == 2) { c << from[i]; }
    else { d << from[i]; }
  }
}

void Square(tapa::istream<int>& in, tapa::ostream<int>& out) {
  while (true) { int x = in.read(); out << x * x; }
}

void Gather(tapa::istream<int>& a, tapa::istream<int>& b, tapa::istream<int>& c, tapa::istream<int>& d, uint64_t n,
            tapa::mmap<int> to) {
  for (uint64_t i = 0; i < n; ++i) {
    if (i % LANES == 0) { a >> to[i]; }
    else if (i % LANES == 1) { b >> to[i]; }
    else if (i % LANES == 2) { c >> to[i]; }
    else { d >> to[i]; }
  }
}

void Squares(tapa::mmap<const int> from, tapa::mmap<int> to, uint64_t n) {
  tapa::streams<int, LANES, 4> in("in"), out("out");
  tapa::task()
    .invoke(Deal, from, n, in[0], in[1], in[2], in[3])
    .invoke<tapa::detach, LANES>(Square, in, out)
    .invoke(Gather, out[0], out[1], out[2], out[3], n, to);
}
