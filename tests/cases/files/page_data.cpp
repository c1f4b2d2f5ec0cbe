void F(tapa::mmap<int> a, int n) { }
void T(tapa::mmap<int> a, int n) { tapa::task().invoke(F, a, n); }
