void P(tapa::ostream<int>& q) { for (int i = 0; i < 4; ++i) { q << i * i * i; } }
void C(tapa::istream<int>& q) { for (int i = 0; i < 4; ++i) { q.read(); } }
void A(tapa::istream<int>& in, tapa::ostream<int>& out) { out << 5; in.read(); }
void B(tapa::istream<int>& in, tapa::ostream<int>& out) { out << in.read() + 1; }
void T() { tapa::stream<int> q, x, y; tapa::task().invoke(P, q).invoke(C, q).invoke(A, y, x).invoke(B, x, y); }
