void P(tapa::ostream<int>& q) { q << 1; } void C(tapa::istream<int>& q) { q.read(); }
void T() { tapa::stream<int> q; tapa::task().invoke(P, q).invoke(C, q); }
