// Fir {"scalars": {"n": 600}, "cells": {"from": 600, "to": 600}}
// A filter of sixteen taps over samples of 16 bits: arrays of taps and of past samples, products in 64 bits, a sum that is cut.
#include <tapa.h>

const int TAPS = 16;

void Load(tapa::mmap<const int16_t> from, uint64_t n, tapa::ostream<int16_t>& samples) {
  for (uint64_t i = 0; i < n; ++i) { samples << from[i]; }
}

void Filter(tapa::istream<int16_t>& samples, uint64_t n, tapa::ostream<int>& sums) {
  int16_t taps[TAPS];
  int16_t past[TAPS];
  for (int k = 0; k < TAPS; ++k) {
    taps[k] = (k * 37 + 11) ^ (k << 3);
    past[k] = 0;
  }
  for (uint64_t i = 0; i < n; ++i) {
    for (int k = TAPS - 1; k > 0; --k) { past[k] = past[k - 1]; }
    past[0] = samples.read();
    int64_t sum = 0;
    for (int k = 0; k < TAPS; ++k) { sum = sum + (int64_t) taps[k] * past[k]; }
    int y = (sum + 8) >> 4;
    if (y > 30000) { y = 30000; } else if (y < -30000) { y = -30000; }
    sums << y;
  }
}

void Store(tapa::istream<int>& sums, uint64_t n, tapa::mmap<int> to) {
  for (uint64_t i = 0; i < n; ++i) { to[i] = sums.read(); }
}

void Fir(tapa::mmap<const int16_t> from, tapa::mmap<int> to, uint64_t n) {
  tapa::stream<int16_t, 4> samples("samples");
  tapa::stream<int, 4> sums("sums");
  tapa::task().invoke(Load, from, n, samples).invoke(Filter, samples, n, sums).invoke(Store, sums, n, to);
}
