void P(tapa::mmap<const int> a, tapa::ostream<int>& q) { for (int i = 0; i < 3; ++i) q << a[i]; }
void C(tapa::istream<int>& q) { q.read(); q.read(); q.read(); }
void T(tapa::mmap<const int> a) { tapa::stream<int> q; tapa::task().invoke(P, a, q).invoke(C, q); }
