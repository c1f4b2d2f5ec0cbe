void A(tapa::istream<int>& r, tapa::ostream<int>& q) { q << 1; r.read(); } void B(tapa::istream<int>& q, tapa::ostream<int>& r) { r << q.read(); } void S(int n) { }
void T() { tapa::stream<int> q, r; tapa::task().invoke(A, r, q).invoke(B, q, r).invoke(S, 1); }
