void F(tapa::mmap<int> m, int t) { int x = t; m[0] = x; x = m[0]; x += 4; m[0] = x; }
void T(tapa::mmap<int> a, int t) { tapa::task().invoke(F, a, t); }
