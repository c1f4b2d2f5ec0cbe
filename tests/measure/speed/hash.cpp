// A hash of the turns: two assignments of two operators each, in numbers of 32 bits and of 64.
void Hash(uint64_t n, tapa::mmap<uint64_t> m) {
  uint32_t h = 2166136261u;
  for (uint64_t i = 0; i < n; ++i) {
    h = (h ^ i) * 16777619u;
    h = h ^ (h >> 13);
  }
  m[0] = h;
}
void Top(uint64_t n, tapa::mmap<uint64_t> m) { tapa::task().invoke(Hash, n, m); }
