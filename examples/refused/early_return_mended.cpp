// tapa run examples/refused/early_return_mended.cpp Top
// A break leaves the loop, and what is done at the end stands once, behind it.
#include <tapa.h>

void Source(tapa::ostream<int>& q) {
  for (int i = 0; i < 8; ++i) {
    if (i * i > 10) break;
    q << i;
  }
  q.close();
}

void Sink(tapa::istream<int>& q) {
  TAPA_WHILE_NOT_EOT(q) { q.read(); }
  q.open();
}

void Top() {
  tapa::stream<int> q("q");
  tapa::task().invoke(Source, q).invoke(Sink, q);
}
