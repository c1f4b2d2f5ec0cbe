// tapa run examples/fork_join.cpp ForkJoin
// A fork and a join: one task deals numbers to two workers, and one adds up what both give, pair by pair. The join reads
// first the left, then the right stream, so the result is the same however fast each worker is.
#include <tapa.h>

void Fork(tapa::ostream<uint64_t>& left, tapa::ostream<uint64_t>& right) {
  for (uint64_t i = 0; i < 6; ++i) {
    left << i;
    right << i + 100;
  }
}

void Twice(tapa::istream<uint64_t>& in, tapa::ostream<uint64_t>& out) {
  for (uint64_t i = 0; i < 6; ++i) { out << 2 * in.read(); }
}

void Join(tapa::istream<uint64_t>& left, tapa::istream<uint64_t>& right, tapa::ostream<uint64_t>& sums) {
  for (uint64_t i = 0; i < 6; ++i) { sums << left.read() + right.read(); }
}

void Sink(tapa::istream<uint64_t>& sums) {
  for (uint64_t i = 0; i < 6; ++i) { sums.read(); }
}

void ForkJoin() {
  tapa::stream<uint64_t> left;
  tapa::stream<uint64_t> right;
  tapa::stream<uint64_t> left_twice;
  tapa::stream<uint64_t> right_twice;
  tapa::stream<uint64_t> sums;
  tapa::task().invoke(Fork, left, right)
      .invoke(Twice, left, left_twice)
      .invoke(Twice, right, right_twice)
      .invoke(Join, left_twice, right_twice, sums)
      .invoke(Sink, sums);
}
