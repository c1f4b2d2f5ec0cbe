// tapa run examples/histogram.cpp Histogram examples/histogram.json
// A histogram of bytes in eight bins, by two counters that take every second byte each. Look at `Count`: its bins are an
// array in the task, which begins with zeros, so that counting touches no memory; and at `Add`, which adds the two arrays up
// as they come, bin by bin.
#include <tapa.h>

const int BINS = 8;

void Deal(tapa::mmap<const uint8_t> bytes, uint64_t n, tapa::ostream<uint8_t>& even, tapa::ostream<uint8_t>& odd) {
  for (uint64_t i = 0; i < n; i += 2) {
    even << bytes[i];
    if (i + 1 < n) { odd << bytes[i + 1]; }
  }
  even.close();
  odd.close();
}

void Count(tapa::istream<uint8_t>& bytes, tapa::ostream<uint32_t>& counts) {
  uint32_t bins[BINS];
  TAPA_WHILE_NOT_EOT(bytes) { bins[bytes.read() >> 5] += 1; }
  bytes.open();
  for (int bin = 0; bin < BINS; ++bin) { counts << bins[bin]; }
}

void Add(tapa::istream<uint32_t>& a, tapa::istream<uint32_t>& b, tapa::mmap<uint32_t> bins) {
  for (int bin = 0; bin < BINS; ++bin) { bins[bin] = a.read() + b.read(); }
}

void Histogram(tapa::mmap<const uint8_t> bytes, tapa::mmap<uint32_t> bins, uint64_t n) {
  tapa::streams<uint8_t, 2, 4> dealt("dealt");
  tapa::streams<uint32_t, 2, BINS> counts("counts");
  tapa::task()
    .invoke(Deal, bytes, n, dealt[0], dealt[1])
    .invoke<tapa::join, 2>(Count, dealt, counts)
    .invoke(Add, counts[0], counts[1], bins);
}
