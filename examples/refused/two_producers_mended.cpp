// tapa run examples/refused/two_producers_mended.cpp Join
// A stream for each producer, and a task that says in which order they are taken.
#include <tapa.h>

void Count(tapa::ostream<int>& q, int from) {
  for (int i = 0; i < 3; ++i) { q << from + i; }
}

void InTurn(tapa::istream<int>& a, tapa::istream<int>& b, tapa::ostream<int>& q) {
  for (int i = 0; i < 3; ++i) { q << a.read() << b.read(); }
}

void Sink(tapa::istream<int>& q) {
  for (int i = 0; i < 6; ++i) { q.read(); }
}

void Join() {
  tapa::stream<int> a("a");
  tapa::stream<int> b("b");
  tapa::stream<int> q("q");
  tapa::task().invoke(Count, a, 10).invoke(Count, b, 20).invoke(InTurn, a, b, q).invoke(Sink, q);
}
