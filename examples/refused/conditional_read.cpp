// tapa run examples/refused/conditional_read.cpp Skip
// C8: a peek stands behind &&, where C++ would skip it. Here every expression is computed whole.
#include <tapa.h>

void Source(tapa::ostream<int>& q) { q << 0 << 0 << 7; q.close(); }

void SkipZeros(tapa::istream<int>& q) {
  while (!q.eot(nullptr) && q.peek(nullptr) == 0) { q.read(); }
  TAPA_WHILE_NOT_EOT(q) { q.read(); }
  q.open();
}

void Skip() {
  tapa::stream<int> q("q");
  tapa::task().invoke(Source, q).invoke(SkipZeros, q);
}
