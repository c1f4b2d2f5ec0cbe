const int DEPTH = $DEPTH;
void Load(tapa::mmap<const int> m, int n, tapa::ostream<int>& q) { for (int i = 0; i < n; ++i) { q << m[i]; } }
void Feed(tapa::istream<int>& in, tapa::ostream<int>& side, tapa::ostream<int>& next, int more) {
  for (int i = 0; i < DEPTH; ++i) { side << in.read(); }
  for (int i = 0; i < more; ++i) { next << in.read(); }
}
void FeedLast(tapa::istream<int>& in, tapa::ostream<int>& side) { for (int i = 0; i < DEPTH; ++i) { side << in.read(); } }
void Element(tapa::istream<int>& left, tapa::istream<int>& up, tapa::ostream<int>& right, tapa::ostream<int>& down, tapa::ostream<int>& out) {
  int sum = 0;
  for (int i = 0; i < DEPTH; ++i) {
    int a = left.read();
    int b = up.read();
    sum += a * b;
    right << a;
    down << b;
  }
  out << sum;
}
void End(tapa::istream<int>& in) { for (int i = 0; i < DEPTH; ++i) { in.read(); } }
void DrainFirst(tapa::istream<int>& own, tapa::ostream<int>& out) { out << own.read(); }
void Drain(tapa::istream<int>& own, tapa::istream<int>& above, tapa::ostream<int>& out, int count) {
  for (int i = 0; i < count; ++i) { out << above.read(); }
  out << own.read();
}
void GatherFirst(tapa::istream<int>& column, tapa::ostream<int>& out, int rows) { for (int i = 0; i < rows; ++i) { out << column.read(); } }
void Gather(tapa::istream<int>& column, tapa::istream<int>& before, tapa::ostream<int>& out, int rows, int count) {
  for (int i = 0; i < count; ++i) { out << before.read(); }
  for (int i = 0; i < rows; ++i) { out << column.read(); }
}
void Store(tapa::istream<int>& q, tapa::mmap<int> m, int n) { for (int i = 0; i < n; ++i) { m[i] = q.read(); } }
