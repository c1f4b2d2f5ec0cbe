void A(tapa::istream<int>& p, tapa::ostream<int>& q) { int x = 1; for (int n = 0; n < 2; ++n) {
  for (int i = 0; i < 4000; ++i) { q << x; x = x + p.read(); } for (int i = 0; i < 60000; ++i) { x = x * 5 + i; } } }
void B(tapa::istream<int>& p, tapa::ostream<int>& q) { int x = 1; for (int n = 0; n < 2; ++n) {
  for (int i = 0; i < 4000; ++i) { x = x + p.read(); q << x; } for (int i = 0; i < 60000; ++i) { x = x * 5 + i; } } }
void T() { tapa::stream<int, 1> a; tapa::stream<int, 1> b; tapa::task().invoke(A, a, b).invoke(B, b, a); }
