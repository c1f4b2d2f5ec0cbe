void F(int8_t n, tapa::mmap<const int> a, tapa::mmap<bool> b) { }
void T(int8_t n, tapa::mmap<const int> a, tapa::mmap<bool> b) { tapa::task().invoke(F, n, a, b); }
