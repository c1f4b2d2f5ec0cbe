void F(tapa::ostream<int>& q) { int x = -7; for (;;) { q << x; x = x * 5 + 11; if (x % 3 == 0) { q.close(); q << x; } } }
void S(tapa::istream<int16_t>& r) { while (true) { if (r.eot(nullptr)) r.open(); else r.read(); } }
