const int N = 4;
void P(tapa::mmap<const int> a, int n, tapa::ostream<int>& q) { for (int i = 0; i < n; ++i) { q.write(a[i] + N); } q.close(); }
void C(tapa::istream<int>& q, int s) { int t = s; TAPA_WHILE_NOT_EOT(q) { t += q.read(); } q.open(); }
void T(tapa::mmap<const int> a, int n) { tapa::streams<int, 2> q; tapa::stream<int, N> r; tapa::task().invoke(P, a, n, r).invoke<tapa::detach>(C, r, 1).invoke(C, q[0], 2); }
