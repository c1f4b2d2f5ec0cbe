// The hash in numbers of 32 bits alone.
void Hash(uint64_t n, tapa::mmap<uint64_t> m) {
  uint32_t h = 2166136261u;
  uint32_t k = n;
  for (uint32_t i = 0; i < k; ++i) {
    h = (h ^ i) * 16777619u;
    h = h ^ (h >> 13);
  }
  m[0] = h;
}
void Top(uint64_t n, tapa::mmap<uint64_t> m) { tapa::task().invoke(Hash, n, m); }
