// A table that is read, changed and written back.
void Table(uint64_t n, tapa::mmap<uint64_t> m) {
  int a[64];
  int s = 1;
  for (uint64_t i = 0; i < n; ++i) {
    s = s + a[i & 63];
    a[(i * 7) & 63] = (s ^ 5) + 3;
  }
  m[0] = s;
}
void Top(uint64_t n, tapa::mmap<uint64_t> m) { tapa::task().invoke(Table, n, m); }
