// tapa run examples/refused/divisor.cpp Mean
// C9: a divisor is a constant, since a divider by a variable is a large and slow circuit and 0 has no quotient.
#include <tapa.h>

void Source(tapa::ostream<int>& q, int n) {
  int sum = 0;
  for (int i = 0; i < n; ++i) { sum += 3 * i; }
  q << sum / n;
}

void Sink(tapa::istream<int>& q) { q.read(); }

void Mean() {
  tapa::stream<int> q("q");
  tapa::task().invoke(Source, q, 8).invoke(Sink, q);
}
