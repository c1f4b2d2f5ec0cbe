// A cascade of filters with coefficients by templates: packs, recursion at compile time, if constexpr, static_assert.
#include <tapa.h>

static_assert(sizeof(int) == 4, "32 bits");

template <int... taps>
constexpr int SumOf() {
  return (taps + ...);
}

template <int N>
constexpr int Power() {
  if constexpr (N == 0) {
    return 1;
  } else {
    return 2 * Power<N - 1>();
  }
}

template <int... taps>
void Fir(tapa::istream<int>& in, tapa::ostream<int>& out) {
  constexpr int kCount = sizeof...(taps);
  constexpr int kSum = SumOf<taps...>();
  const int coefficients[kCount] = {taps...};
  int line[kCount] = {0};
  while (!in.eot(nullptr)) {
    for (int i = kCount - 1; i > 0; i--) line[i] = line[i - 1];
    line[0] = in.read();
    int acc = 0;
    for (int i = 0; i < kCount; i++) acc += coefficients[i] * line[i];
    if constexpr (kSum == Power<2>()) {
      out << (acc >> 2);
    } else if constexpr (kSum == 0) {
      out << acc;
    } else {
      out << acc / kSum;
    }
  }
  in.open();
  out.close();
}

void Source(tapa::mmap<const int> m, size_t n, tapa::ostream<int>& out) {
  for (size_t i{0}; i < n; ++i) out << m[i];
  out.close();
}

void Sink(tapa::istream<int>& in, tapa::mmap<int> m) {
  for (size_t i = 0; !in.eot(nullptr); i++) {
    m[i] = in.read();
  }
  in.open();
}

void Cascade(tapa::mmap<const int> in, tapa::mmap<int> out, size_t n) {
  tapa::stream<int> a, b, c, d;
  tapa::task().invoke(Source, in, n, a).invoke(Fir<1, 2, 1>, a, b).invoke(Fir<1, -1>, b, c).invoke(Fir<1, 3, 3, 1, -2>, c, d).invoke(Sink, d, out);
}
