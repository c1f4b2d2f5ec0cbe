void P(tapa::ostream<int>& q) { q << 1; } void C(tapa::istream<int>& q) { q.read(); }
void S(int n) { } void M(tapa::mmap<int> m) { } void R(tapa::mmap<const int> m) { }
@
