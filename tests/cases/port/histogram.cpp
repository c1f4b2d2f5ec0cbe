// Histograms by lanes with private bins, merged at the end; a server that is not waited for has the limits.
#include <tapa.h>

template <typename T, int N>
struct Bins {
  T count[N];
  Bins& operator+=(const Bins& o) {
    for (int i = 0; i < N; ++i) count[i] += o.count[i];
    return *this;
  }
};

constexpr int kBins = 8;
constexpr int kLanes = 2;

void Limits(tapa::istream<int>& ask, tapa::ostream<int>& answer) {
  while (true) {
    const int bin = ask.read();
    answer.write(bin < 0 ? -1 : (1 << bin) * 3);
  }
}

void Lane(tapa::mmap<const int> values, int n, tapa::ostream<int>& ask, tapa::istream<int>& answer, tapa::ostream<Bins<uint32_t, kBins>>& out) {
  int limits[kBins];
  for (int i = 0; i < kBins; ++i) {
    ask << i;
    limits[i] = answer.read();
  }
  Bins<uint32_t, kBins> bins;
  for (int i = 0; i < kBins; ++i) bins.count[i] = 0;
  int last = -1;
  for (int i = 0; i < n; ++i) {
    const int value = values[i];
    int bin = kBins - 1;
    for (int b = 0; b < kBins; ++b) {
      if (value < limits[b]) {
        bin = b;
        break;
      }
    }
    bins.count[bin] += bin == last ? 1u : 2u;
    last = bin;
  }
  out.write(bins);
}

void Merge(tapa::istream<Bins<uint32_t, kBins>>& a, tapa::istream<Bins<uint32_t, kBins>>& b, tapa::mmap<uint32_t> out) {
  Bins<uint32_t, kBins> all = a.read();
  all += b.read();
  for (int i = 0; i < kBins; ++i) {
#pragma HLS unroll
    out[i] = all.count[i];
  }
}

void Histogram(tapa::mmap<const int> values_0, tapa::mmap<const int> values_1, tapa::mmap<uint32_t> out, int n) {
  tapa::streams<int, kLanes> ask, answer;
  tapa::stream<Bins<uint32_t, kBins>> left("left"), right("right");
  tapa::task()
      .invoke<tapa::detach, kLanes>(Limits, ask, answer)
      .invoke(Lane, values_0, n, ask[0], answer[0], left)
      .invoke(Lane, values_1, n, ask[1], answer[1], right)
      .invoke(Merge, left, right, out);
}
