void Give(tapa::ostream<int>& q) { for (int i = 0; i < 30; ++i) q << i; }
void Slow(tapa::istream<int>& q, tapa::ostream<int>& r) {
  for (int i = 0; i < 30; ++i) {
    int x = q.read(); int y = x * 2; y += 3; r << y;
  }
}
void Take(tapa::istream<int>& r) { for (int i = 0; i < 30; ++i) r.read(); }
void T() { tapa::stream<int> q, r; tapa::task().invoke(Give, q).invoke(Slow, q, r).invoke(Take, r); }
