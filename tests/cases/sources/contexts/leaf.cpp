const int N = 4; const int Z = 0;
void F(tapa::istream<int>& i, tapa::ostream<int>& o, tapa::mmap<int> m, tapa::mmap<const int> c, int n, const int k) {
@
}
void T(tapa::mmap<int> m, tapa::mmap<const int> c, int n) { tapa::stream<int> q; tapa::task().invoke(F, q, q, m, c, n, 2); }
