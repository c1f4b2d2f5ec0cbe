// A filter with eight taps over a register line.
void Fir(uint64_t n, tapa::mmap<uint64_t> m) {
  int d0 = 0; int d1 = 0; int d2 = 0; int d3 = 0;
  int s = 0;
  for (uint64_t i = 0; i < n; ++i) {
    d3 = d2;
    d2 = d1;
    d1 = d0;
    d0 = (s >> 3) + 17;
    s = d0 * 3 + d1 * 5 + d2 * 7 + d3 * 11;
  }
  m[0] = s;
}
void Top(uint64_t n, tapa::mmap<uint64_t> m) { tapa::task().invoke(Fir, n, m); }
