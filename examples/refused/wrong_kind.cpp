// tapa run examples/refused/wrong_kind.cpp Top
// C3: the stream has another kind than the parameters of the tasks that it joins.
#include <tapa.h>

void Source(tapa::ostream<int>& q) { q << 1 << 2; }

void Sink(tapa::istream<int>& q) { q.read(); q.read(); }

void Top() {
  tapa::stream<long> q("q");
  tapa::task().invoke(Source, q).invoke(Sink, q);
}
