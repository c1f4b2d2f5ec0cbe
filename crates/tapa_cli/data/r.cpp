void P(tapa::ostream<uint64_t>& q) { for (uint64_t i = 0; i < 3; ++i) { q << i + 5; } }
void C(tapa::istream<uint64_t>& q, tapa::ostream<uint64_t>& r) {
  for (uint64_t j = 0; j < 3; ++j) { r << q.read() + 1; } }
void D(tapa::istream<uint64_t>& r) { for (uint64_t k = 0; k < 3; ++k) { uint64_t x = r.read(); } }
void T() { tapa::stream<uint64_t> q; tapa::stream<uint64_t> r;
  tapa::task().invoke(P, q).invoke(C, q, r).invoke(D, r); }
