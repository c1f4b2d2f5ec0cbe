// tapa run examples/two_ways.cpp TwoWays examples/two_ways.json
// A value that goes two ways: through a filter, and past it. Where the filter stands on another die, the way through it takes
// longer; docs/FLOORPLAN.md follows this program from its plan to its balanced circuit.
#include <tapa.h>

void Source(tapa::ostream<int>& work, tapa::ostream<int>& past) {
  for (int i = 0; i < 16; ++i) {
    work << i;
    past << i;
  }
}

void Filter(tapa::istream<int>& work, tapa::ostream<uint8_t>& filtered) {
  for (int i = 0; i < 16; ++i) { filtered << work.read() / 4; }
}

void Join(tapa::istream<uint8_t>& filtered, tapa::istream<int>& past, tapa::mmap<int> sums) {
  for (uint64_t i = 0; i < 16; ++i) { sums[i] = filtered.read() + past.read(); }
}

void TwoWays(tapa::mmap<int> sums) {
  tapa::stream<int> work;
  tapa::stream<uint8_t> filtered;
  tapa::stream<int> past;
  tapa::task().invoke(Source, work, past).invoke(Filter, work, filtered).invoke(Join, filtered, past, sums);
}
