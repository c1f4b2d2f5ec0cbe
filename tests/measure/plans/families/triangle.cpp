void Load(tapa::mmap<const int> m, int n, tapa::ostream<int>& q) { for (int i = 0; i < n; ++i) { q << m[i]; } }
void Feed(tapa::istream<int>& in, tapa::ostream<int>& column, tapa::ostream<int>& next, int size, int more) {
  for (int i = 0; i < size; ++i) { column << in.read(); }
  for (int i = 0; i < more; ++i) { next << in.read(); }
}
void FeedLast(tapa::istream<int>& in, tapa::ostream<int>& column, int size) { for (int i = 0; i < size; ++i) { column << in.read(); } }
void Pivot(tapa::istream<int>& in, tapa::ostream<int>& factor, tapa::ostream<int>& row, int count) {
  int kept = in.read();
  for (int i = 0; i < count; ++i) { factor << in.read(); }
  row << kept;
}
void PivotLast(tapa::istream<int>& in, tapa::ostream<int>& row) { row << in.read(); }
void Inner(tapa::istream<int>& in, tapa::istream<int>& factor, tapa::istream<int>& before, tapa::ostream<int>& down, tapa::ostream<int>& right, tapa::ostream<int>& row, int count, int left) {
  int kept = in.read();
  for (int i = 0; i < count; ++i) {
    int f = factor.read();
    right << f;
    down << in.read() - f * kept;
  }
  for (int i = 0; i < left; ++i) { row << before.read(); }
  row << kept;
}
void Edge(tapa::istream<int>& in, tapa::istream<int>& factor, tapa::istream<int>& before, tapa::ostream<int>& down, tapa::ostream<int>& row, int count, int left) {
  int kept = in.read();
  for (int i = 0; i < count; ++i) { down << in.read() - factor.read() * kept; }
  for (int i = 0; i < left; ++i) { row << before.read(); }
  row << kept;
}
void GatherFirst(tapa::istream<int>& row, tapa::ostream<int>& out, int own) { for (int i = 0; i < own; ++i) { out << row.read(); } }
void Gather(tapa::istream<int>& row, tapa::istream<int>& above, tapa::ostream<int>& out, int own, int count) {
  for (int i = 0; i < count; ++i) { out << above.read(); }
  for (int i = 0; i < own; ++i) { out << row.read(); }
}
void Store(tapa::istream<int>& q, tapa::mmap<int> m, int n) { for (int i = 0; i < n; ++i) { m[i] = q.read(); } }
