void Load(tapa::mmap<const int> m, int n, tapa::ostream<int>& q) { for (int i = 0; i < n; ++i) { q << m[i]; } }
void Tap(tapa::istream<int>& in, tapa::ostream<int>& next, tapa::ostream<int>& out, int n, int first, int last) {
  for (int i = 0; i < n; ++i) {
    int x = in.read();
    next << x;
    if (i >= first && i < last) { out << x; }
  }
}
void TapLast(tapa::istream<int>& in, tapa::ostream<int>& out, int n, int first) {
  for (int i = 0; i < n; ++i) {
    int x = in.read();
    if (i >= first) { out << x; }
  }
}
void Add(tapa::istream<int>& up, tapa::istream<int>& left, tapa::istream<int>& mid, tapa::istream<int>& right, tapa::istream<int>& down, tapa::ostream<int>& out, int n) {
  for (int i = 0; i < n; ++i) { out << (up.read() + left.read() + 4 * mid.read() + right.read() + down.read()); }
}
void Store(tapa::istream<int>& q, tapa::mmap<int> m, int n) { for (int i = 0; i < n; ++i) { m[i] = q.read(); } }
