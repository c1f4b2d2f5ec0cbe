void F(tapa::mmap<int> m) {
  int a[4];
  for (int i = 0; i < 6; ++i) { a[i] = i; }
  for (int i = 0; i < 6; ++i) { m[i] = a[i]; }
  for (int i = 0; i < 6; ++i) { int x = i < 4 ? a[i] : 0; }
}
void T(tapa::mmap<int> m) { tapa::task().invoke(F, m); }
