// tapa run examples/bandwidth.cpp Bandwidth examples/bandwidth.json
// How fast memories are: two banks, each read by one task and stored by another, in order or at scattered places. Look at
// the cycles of `cosim`, in order and scattered (`mode` 3 and 7): they are the same, as a memory answers within the cycle, and
// it is the nine ticks of a turn of `Store` that bound both; and at a bank with `waits` in the data (docs/DATA.md), which is
// not always ready.
#include <tapa.h>

const uint64_t READ = 1;
const uint64_t STORE = 2;
const uint64_t SCATTERED = 4;
const uint64_t STRIDE = 5;   // odd, so that each place of a bank of 2^k cells comes once

void Read(tapa::mmap<const int> bank, uint64_t cells, uint64_t mode, tapa::ostream<int>& q) {
  uint64_t at = 0;
  uint64_t step = mode & SCATTERED ? STRIDE : 1;
  if (mode & READ) {
    for (uint64_t i = 0; i < cells; ++i) { q << bank[at & cells - 1]; at += step; }
  }
  q.close();
}

void Store(tapa::istream<int>& q, uint64_t cells, uint64_t mode, tapa::mmap<int> bank) {
  uint64_t at = 0;
  uint64_t step = mode & SCATTERED ? STRIDE : 1;
  int sum = 0;
  TAPA_WHILE_NOT_EOT(q) {
    int x = q.read();
    sum += x;
    if (mode & STORE) { bank[at & cells - 1] = x; at += step; }
  }
  q.open();
  bank[cells] = sum;   // behind the cells that were copied, so that what was read alone leaves something too
}

void Bandwidth(tapa::mmap<const int> from_0, tapa::mmap<const int> from_1, tapa::mmap<int> to_0, tapa::mmap<int> to_1,
               uint64_t cells, uint64_t mode) {
  tapa::streams<int, 2, 16> q("q");
  tapa::task()
    .invoke(Read, from_0, cells, mode, q[0])
    .invoke(Read, from_1, cells, mode, q[1])
    .invoke(Store, q[0], cells, mode, to_0)
    .invoke(Store, q[1], cells, mode, to_1);
}
