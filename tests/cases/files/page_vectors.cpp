void F(tapa::mmap<const int> a, tapa::mmap<const int> b, tapa::mmap<int> c, uint64_t n) { }
void T(tapa::mmap<const int> a, tapa::mmap<const int> b, tapa::mmap<int> c, uint64_t n) { tapa::task().invoke(F, a, b, c, n); }
