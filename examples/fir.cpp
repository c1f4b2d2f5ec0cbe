// tapa run examples/fir.cpp Fir examples/fir.json
// A filter of four taps, each a task of its own: a tap passes the sample that it got before on to the next one, and adds its
// share to the sum that comes along. Look at how one task becomes four taps by a constant that it gets where it is invoked,
// and at `Begin` and `End`, which close the two lines of streams. All taps work at once, each on another sample.
#include <tapa.h>

const int TAPS = 4;

void Load(tapa::mmap<const int16_t> samples, uint64_t n, tapa::ostream<int16_t>& x) {
  for (uint64_t i = 0; i < n; ++i) { x << samples[i]; }
}

void Begin(uint64_t n, tapa::ostream<int>& sum) {
  for (uint64_t i = 0; i < n; ++i) { sum << 0; }
}

void Tap(int weight, uint64_t n, tapa::istream<int16_t>& x, tapa::istream<int>& sum, tapa::ostream<int16_t>& next_x,
         tapa::ostream<int>& next_sum) {
  int16_t before = 0;
  for (uint64_t i = 0; i < n; ++i) {
    int16_t sample = x.read();
    next_x << before;
    next_sum << sum.read() + weight * sample;
    before = sample;
  }
}

void End(uint64_t n, tapa::istream<int16_t>& x) {
  for (uint64_t i = 0; i < n; ++i) { x.read(); }
}

void Store(tapa::istream<int>& sum, uint64_t n, tapa::mmap<int> filtered) {
  for (uint64_t i = 0; i < n; ++i) { sum >> filtered[i]; }
}

void Fir(tapa::mmap<const int16_t> samples, tapa::mmap<int> filtered, uint64_t n) {
  tapa::streams<int16_t, 5> x("x");
  tapa::streams<int, 5> sum("sum");
  tapa::task()
    .invoke(Load, samples, n, x[0])
    .invoke(Begin, n, sum[0])
    .invoke(Tap, -1, n, x[0], sum[0], x[1], sum[1])
    .invoke(Tap, 3, n, x[1], sum[1], x[2], sum[2])
    .invoke(Tap, 3, n, x[2], sum[2], x[3], sum[3])
    .invoke(Tap, -1, n, x[3], sum[3], x[4], sum[4])
    .invoke(End, n, x[TAPS])
    .invoke(Store, sum[TAPS], n, filtered);
}
