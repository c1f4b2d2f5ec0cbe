void P(tapa::ostream<int8_t>& x) { x << 255; x << 128; }
void F(tapa::istream<int8_t>& x, tapa::ostream<uint8_t>& r) { x.read(); x.read(); r << 200; r.close(); }
void C(tapa::istream<uint8_t>& r) { r.read(); r.open(); }
void U(tapa::ostream<uint8_t>& r) { tapa::stream<int8_t, 4> x("x"); tapa::task().invoke(P, x).invoke(F, x, r); }
void T() { tapa::stream<uint8_t> r; tapa::task().invoke(U, r).invoke(C, r); }
