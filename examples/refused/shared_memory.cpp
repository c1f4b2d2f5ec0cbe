// tapa run examples/refused/shared_memory.cpp Scale
// C7: two tasks have one memory, and what is loaded would depend on who comes first.
#include <tapa.h>

void Load(tapa::mmap<const int> cells, tapa::ostream<int>& q) {
  for (int i = 0; i < 4; ++i) { q << cells[i]; }
}

void Store(tapa::istream<int>& q, tapa::mmap<int> cells) {
  for (int i = 0; i < 4; ++i) { cells[i] = 2 * q.read(); }
}

void Scale(tapa::mmap<int> cells) {
  tapa::stream<int> q("q");
  tapa::task().invoke(Load, cells, q).invoke(Store, q, cells);
}
