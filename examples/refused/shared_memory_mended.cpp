// tapa run examples/refused/shared_memory_mended.cpp Scale examples/refused/shared_memory_mended.json
// A memory that is read and another that is written, each of one task.
#include <tapa.h>

void Load(tapa::mmap<const int> cells, tapa::ostream<int>& q) {
  for (int i = 0; i < 4; ++i) { q << cells[i]; }
}

void Store(tapa::istream<int>& q, tapa::mmap<int> scaled) {
  for (int i = 0; i < 4; ++i) { scaled[i] = 2 * q.read(); }
}

void Scale(tapa::mmap<const int> cells, tapa::mmap<int> scaled) {
  tapa::stream<int> q("q");
  tapa::task().invoke(Load, cells, q).invoke(Store, q, scaled);
}
