// One task that computes with an array, a memory and values of several kinds.
void Mixed(uint64_t n, tapa::mmap<uint64_t> m) {
  int a[64];
  uint8_t c = 1;
  int16_t d = -3;
  for (uint64_t i = 0; i < n; ++i) {
    int x = a[i & 63];
    if (x > 100 || (i & 7) == 3) {
      x = x - d;
    } else {
      x = (x + c) * 3;
    }
    c = c + 5;
    d = d ^ c;
    a[(i * 7) & 63] = x;
    m[i & 255] = m[(i + 1) & 255] + x;
  }
}
void Top(uint64_t n, tapa::mmap<uint64_t> m) { tapa::task().invoke(Mixed, n, m); }
