// tapa run examples/refused/two_producers.cpp Join
// C4: two tasks write one stream, and what it carries would depend on time.
#include <tapa.h>

void Count(tapa::ostream<int>& q, int from) {
  for (int i = 0; i < 3; ++i) { q << from + i; }
}

void Sink(tapa::istream<int>& q) {
  for (int i = 0; i < 6; ++i) { q.read(); }
}

void Join() {
  tapa::stream<int> q("q");
  tapa::task().invoke(Count, q, 10).invoke(Count, q, 20).invoke(Sink, q);
}
