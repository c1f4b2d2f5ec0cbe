void Load(tapa::mmap<const int> a, tapa::ostream<int>& q) { for (int i = 0; i < 20; ++i) q << a[i]; }
void Sum(tapa::istream<int>& q, tapa::mmap<int> s) { int sum = 0; for (int i = 0; i < 20; ++i) sum += q.read(); s[0] = sum; }
void T(tapa::mmap<const int> a, tapa::mmap<int> s) { tapa::stream<int> q; tapa::task().invoke(Load, a, q).invoke(Sum, q, s); }
