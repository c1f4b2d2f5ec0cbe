void P(tapa::ostream<int>& q) { q << 7; q.close(); q << 8; q << 9; q.close(); }
void C(tapa::istream<int>& q, tapa::ostream<int>& r) { for (int k = 0; k < 2; ++k) { int sum = 0;
  TAPA_WHILE_NOT_EOT(q) { sum += q.read(); } q.open(); r << sum; } }
void S(tapa::istream<int>& r) { r.read(); r.read(); }
void T() { tapa::stream<int> q; tapa::stream<int> r; tapa::task().invoke(P, q).invoke(C, q, r).invoke(S, r); }
