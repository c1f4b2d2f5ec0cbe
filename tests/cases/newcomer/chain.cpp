#include <tapa.h>

// A systolic row: samples pass along the cells, each of which has a weight of its own, and sums of products come out at its end.
constexpr int kCells = 4;

void Feed(tapa::mmap<const int> samples, int n, tapa::ostream<int>& out) {
  for (int i = 0; i < n; ++i) {
#pragma HLS pipeline II = 1
    out.write(samples[i]);
  }
}

void Zeros(int n, tapa::ostream<int>& out) {
  for (int i = 0; i < n; ++i) out.write(0);
}

void Cell(int id, int n, tapa::istream<int>& in, tapa::ostream<int>& out, tapa::istream<int>& sum_in, tapa::ostream<int>& sum_out) {
  const int weight = id + 1;
cell:
  for (int i = 0; i < n; ++i) {
#pragma HLS pipeline II = 1
    const int x = in.read();
    out.write(x);
    sum_out.write(sum_in.read() + weight * x);
  }
}

void BlackHole(tapa::istream<int>& in) {
  for (;;) in.read();
}

void Drain(tapa::istream<int>& in, int n, tapa::mmap<int> sums) {
  for (int i = 0; i < n; ++i) sums[i] = in.read();
}

void Chain(tapa::mmap<const int> samples, tapa::mmap<int> sums, int n) {
  tapa::streams<int, kCells + 1, 2> pass("pass");
  tapa::streams<int, kCells + 1, 2> sum("sum");

  tapa::task()
      .invoke(Feed, samples, n, pass)
      .invoke(Zeros, n, sum)
      .invoke<tapa::join, kCells>(Cell, tapa::seq(), n, pass, pass, sum, sum)
      .invoke<tapa::detach>(BlackHole, pass)
      .invoke(Drain, sum, n, sums);
}
