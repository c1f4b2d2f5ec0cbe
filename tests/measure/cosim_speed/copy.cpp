// Copy {"scalars": {"n": 2048}, "cells": {"a": 4096, "b": 4096, "c": 4096, "d": 4096}}
// A copy over four memories at once, for bandwidth: each of four tasks copies the first half of its memory to the second in its own order of addresses, and sends a sum of what it moved.
#include <tapa.h>

void Move(tapa::mmap<uint64_t> cells, uint64_t n, unsigned stride, tapa::ostream<uint64_t>& sum) {
  uint64_t s = 0;
  unsigned at = 0;
  for (uint64_t i = 0; i < n; ++i) {
    uint64_t x = cells[at];
    s = s ^ (x + (s << 7) + (s >> 3));
    cells[n + at] = x;
    at = (at + stride) & ((unsigned) n - 1);
  }
  sum << s;
}

void Gather(tapa::istream<uint64_t>& a, tapa::istream<uint64_t>& b, tapa::istream<uint64_t>& c, tapa::istream<uint64_t>& d, tapa::ostream<uint64_t>& all) {
  uint64_t s = a.read();
  s = s ^ b.read();
  s = s ^ c.read();
  s = s ^ d.read();
  all << s;
}

void Last(tapa::istream<uint64_t>& all) { all.read(); }

void Copy(tapa::mmap<uint64_t> a, tapa::mmap<uint64_t> b, tapa::mmap<uint64_t> c, tapa::mmap<uint64_t> d, uint64_t n) {
  tapa::stream<uint64_t> sa("sa"), sb("sb"), sc("sc"), sd("sd"), all("all");
  tapa::task()
    .invoke(Move, a, n, 1, sa)
    .invoke(Move, b, n, 3, sb)
    .invoke(Move, c, n, 17, sc)
    .invoke(Move, d, n, 255, sd)
    .invoke(Gather, sa, sb, sc, sd, all)
    .invoke(Last, all);
}
