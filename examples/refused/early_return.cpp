// tapa run examples/refused/early_return.cpp Top
// P1: a task has no return; it ends where its body ends.
#include <tapa.h>

void Source(tapa::ostream<int>& q) {
  for (int i = 0; i < 8; ++i) {
    if (i * i > 10) { q.close(); return; }
    q << i;
  }
}

void Sink(tapa::istream<int>& q) {
  TAPA_WHILE_NOT_EOT(q) { q.read(); }
  q.open();
}

void Top() {
  tapa::stream<int> q("q");
  tapa::task().invoke(Source, q).invoke(Sink, q);
}
