void P(tapa::ostream<int>& q) { q << 1; q << 2; }
void C(tapa::istream<int>& q) { q.open(); }
void T() { tapa::stream<int, 1> q; tapa::task().invoke(P, q).invoke(C, q); }
