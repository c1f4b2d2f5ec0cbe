// tapa run examples/interleaved_copy.cpp Copy examples/interleaved_copy.json
// A copy that deals the cells of one memory to two lanes in turn and gathers them again, as designs do that spread a load
// over several memory channels. Look at the streams `even` and `odd`: each carries every second cell, and the gatherer
// takes them in the order in which they were dealt, so the copy is exact whatever the lanes' speeds are.
#include <tapa.h>

void Deal(tapa::mmap<const int> from, uint64_t n, tapa::ostream<int>& even, tapa::ostream<int>& odd) {
  for (uint64_t i = 0; i < n; ++i) {
    if (i % 2 == 0) { even << from[i]; } else { odd << from[i]; }
  }
}

void Gather(tapa::istream<int>& even, tapa::istream<int>& odd, uint64_t n, tapa::mmap<int> to) {
  for (uint64_t i = 0; i < n; ++i) {
    if (i % 2 == 0) { even >> to[i]; } else { odd >> to[i]; }
  }
}

void Copy(tapa::mmap<const int> from, tapa::mmap<int> to, uint64_t n) {
  tapa::stream<int, 4> even("even");
  tapa::stream<int, 4> odd("odd");
  tapa::task().invoke(Deal, from, n, even, odd).invoke(Gather, even, odd, n, to);
}
