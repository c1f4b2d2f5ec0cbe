void P(tapa::ostream<int>& q) { while (true) { q << 1; } }
void C(tapa::istream<int>& q) { while (true) { q.read(); } }
void T() { tapa::stream<int> q; tapa::task().invoke<tapa::detach>(P, q).invoke<tapa::detach>(C, q); }
