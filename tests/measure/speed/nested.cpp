// A walk whose step is chosen by tests within tests.
void Walk(uint64_t n, tapa::mmap<uint64_t> m) {
  int x = 27;
  int y = 0;
  for (uint64_t i = 0; i < n; ++i) {
    if ((x & 1) == 0) {
      x = x / 2;
    } else if (x > 100000) {
      x = x - 99991;
    } else {
      if (x < 3) {
        x = y + 27;
      } else {
        x = x * 3 + 1;
      }
    }
    if (x > y && x != 1) {
      y = y + 1;
    }
  }
  m[0] = x + y;
}
void Top(uint64_t n, tapa::mmap<uint64_t> m) { tapa::task().invoke(Walk, n, m); }
