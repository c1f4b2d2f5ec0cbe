// tapa run examples/refused/conditional_read_mended.cpp Skip
// Each operation in a statement of its own, and a break where the next must not be made.
#include <tapa.h>

void Source(tapa::ostream<int>& q) { q << 0 << 0 << 7; q.close(); }

void SkipZeros(tapa::istream<int>& q) {
  while (true) {
    bool over = q.eot(nullptr);
    if (over) break;
    int next = q.peek(nullptr);
    if (next != 0) break;
    q.read();
  }
  TAPA_WHILE_NOT_EOT(q) { q.read(); }
  q.open();
}

void Skip() {
  tapa::stream<int> q("q");
  tapa::task().invoke(Source, q).invoke(SkipZeros, q);
}
