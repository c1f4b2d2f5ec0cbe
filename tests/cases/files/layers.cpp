void Src(tapa::ostream<uint64_t>& a, tapa::ostream<uint64_t>& b) {
  for (uint64_t i = 0; i < 100; ++i) { a << i; b << i; } }
void Mid(tapa::istream<uint64_t>& x, tapa::istream<uint64_t>& y, tapa::ostream<uint64_t>& a, tapa::ostream<uint64_t>& b) {
  for (uint64_t i = 0; i < 100; ++i) { uint64_t t = x.read() + y.read(); a << t; b << t; } }
void Dst(tapa::istream<uint64_t>& x, tapa::istream<uint64_t>& y) {
  uint64_t t = 0; for (uint64_t i = 0; i < 100; ++i) { t += x.read() + y.read(); } }
