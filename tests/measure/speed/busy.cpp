// One task that computes without streams: three ticks a turn.
void Busy(uint64_t n, tapa::mmap<uint64_t> m) {
  uint64_t s = 1;
  for (uint64_t i = 0; i < n; ++i) {
    s = s * 3 + i;
  }
  m[0] = s;
}
void Top(uint64_t n, tapa::mmap<uint64_t> m) { tapa::task().invoke(Busy, n, m); }
