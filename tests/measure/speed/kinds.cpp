// Sums, differences and comparisons in each kind of integers.
void Kinds(uint64_t n, tapa::mmap<uint64_t> m) {
  uint8_t a = 1; int8_t b = 2; uint16_t c = 3; int16_t d = 4;
  uint32_t e = 5; int32_t f = 6; uint64_t g = 7; int64_t h = 8;
  for (uint64_t i = 0; i < n; ++i) {
    a = a + 5;
    b = b ^ a;
    c = c * 3 + a;
    d = d - b;
    e = e * 7 + c;
    f = f + d;
    g = g * 5 + e;
    h = h - f;
    if (h < f) {
      h = h + 1000;
    }
  }
  m[0] = a + b + c + d + e + f + g + h;
}
void Top(uint64_t n, tapa::mmap<uint64_t> m) { tapa::task().invoke(Kinds, n, m); }
