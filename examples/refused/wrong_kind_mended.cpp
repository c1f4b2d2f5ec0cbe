// tapa run examples/refused/wrong_kind_mended.cpp Top
// `int32_t` and `int` are one kind, `long` is another.
#include <tapa.h>

void Source(tapa::ostream<int>& q) { q << 1 << 2; }

void Sink(tapa::istream<int>& q) { q.read(); q.read(); }

void Top() {
  tapa::stream<int32_t> q("q");
  tapa::task().invoke(Source, q).invoke(Sink, q);
}
