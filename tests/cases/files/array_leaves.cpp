void P(tapa::ostream<int>& q) { q << 1 << 2; }
void F(tapa::istream<int>& p, tapa::ostream<int>& q, int n) { q << p.read() + n << p.read() * n; }
void C(tapa::istream<int>& q) { q.read(); q.read(); }
void S(int n) { }
