// tapa run examples/refused/divisor_mended.cpp Mean
// The number of values is a constant of the file.
#include <tapa.h>

const int COUNT = 8;

void Source(tapa::ostream<int>& q) {
  int sum = 0;
  for (int i = 0; i < COUNT; ++i) { sum += 3 * i; }
  q << sum / COUNT;
}

void Sink(tapa::istream<int>& q) { q.read(); }

void Mean() {
  tapa::stream<int> q("q");
  tapa::task().invoke(Source, q).invoke(Sink, q);
}
