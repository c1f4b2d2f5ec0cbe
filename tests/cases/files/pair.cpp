void P(tapa::ostream<int>& q) { q << 1 << 2 << 3; }
void C(tapa::istream<int>& q) { q.read(); q.read(); q.read(); }
void T() { tapa::stream<int> q; tapa::stream<int> r; tapa::task().invoke(P, q).invoke(C, q).invoke(P, r).invoke(C, r); }
