void Echo(int s, int t, tapa::ostream<uint32_t>& q, tapa::mmap<uint8_t> a, tapa::mmap<uint8_t> b) { q << s << t; }
void Sink(tapa::istream<uint32_t>& q) { q.read(); q.read(); }
void T(int s, int t, tapa::mmap<uint8_t> a, tapa::mmap<uint8_t> b) {
  tapa::stream<uint32_t> q; tapa::task().invoke(Echo, s, t, q, a, b).invoke(Sink, q); }
