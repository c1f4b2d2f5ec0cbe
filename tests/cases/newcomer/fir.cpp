#include "fir.h"

// The coefficients of a low-pass filter.
static const int16_t coefficients[TAPS] = {1, 4, 6, 4, 1};

void Load(tapa::mmap<const sample_t> in, int n, tapa::ostream<sample_t>& out) {
  for (int i = 0; i < n; ++i) out << in[i];
  out.close();
}

void Fir(tapa::istream<sample_t>& in, tapa::ostream<int>& out) {
  int window[TAPS] = {0};
  TAPA_WHILE_NOT_EOT(in) {
#pragma HLS pipeline
    int sum = 0;
  shift:
    for (int i = TAPS - 1, last = TAPS - 2; i > 0; --i, --last) {
#pragma HLS unroll
      window[i] = window[last];
    }
    window[0] = in.read();
  mac:
    for (int i = 0; i < TAPS; ++i) {
      sum += window[i] * coefficients[i];
    }
    out << scaled(sum);
  }
  in.open();
}

void Store(tapa::istream<int>& in, tapa::mmap<int> out, int n) {
  for (int i = 0; i < n; ++i) out[i] = in.read();
}

void FirFilter(tapa::mmap<const sample_t> in, tapa::mmap<int> out, int n) {
  tapa::stream<sample_t, 2> samples("samples");
  tapa::stream<int, 2> sums("sums");
  tapa::task().invoke(Load, in, n, samples).invoke(Fir, samples, sums).invoke(Store, sums, out, n);
}
