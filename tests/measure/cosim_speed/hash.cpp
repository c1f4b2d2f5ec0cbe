// Count {"scalars": {"n": 400}, "cells": {"words": 400, "counts": 128}}
// A table of counts by a hash of words: open addresses in arrays of 32 and 16 bits, a hash of several operators and nested ifs, and what was found sent on with signs and ends of transactions.
#include <tapa.h>

const int SLOTS = 128;

void Load(tapa::mmap<const uint64_t> words, uint64_t n, tapa::ostream<uint64_t>& in) {
  for (uint64_t i = 0; i < n; ++i) { in << (words[i] & 0x3f3f); }
  in.close();
}

void Table(tapa::istream<uint64_t>& in, tapa::ostream<int16_t>& found) {
  unsigned keys[SLOTS];
  int16_t counts[SLOTS];
  uint8_t full = 0;
  TAPA_WHILE_NOT_EOT(in) {
    unsigned key = in.read();
    unsigned h = 2166136261u;
    for (int b = 0; b < 4; ++b) { h = (h ^ ((key >> (8 * b)) & 255)) * 16777619u; h = h ^ (h >> 13); }
    uint8_t at = h & (SLOTS - 1);
    bool looking = true;
    while (looking) {
      if (counts[at] == 0) {
        if (full < SLOTS - 1) { keys[at] = key; counts[at] = 1; full += 1; found << (int16_t) at; }
        else { found << (int16_t) -1; }
        looking = false;
      } else if (keys[at] == key) {
        counts[at] = counts[at] + 1;
        found << counts[at];
        looking = false;
      } else {
        at = (at + 1) & (SLOTS - 1);
      }
    }
  }
  in.open();
  found.close();
}

void Sum(tapa::istream<int16_t>& found, tapa::mmap<long> counts) {
  long sum = 0;
  uint64_t k = 0;
  TAPA_WHILE_NOT_EOT(found) {
    int16_t x = found.read();
    sum = x < 0 ? sum - 1 : sum + x * (k & 7);
    counts[k & 127] = sum;
    k += 1;
  }
  found.open();
}

void Count(tapa::mmap<const uint64_t> words, tapa::mmap<long> counts, uint64_t n) {
  tapa::stream<uint64_t, 4> in("in");
  tapa::stream<int16_t, 4> found("found");
  tapa::task().invoke(Load, words, n, in).invoke(Table, in, found).invoke(Sum, found, counts);
}
