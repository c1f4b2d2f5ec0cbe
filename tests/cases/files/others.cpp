#define DEPTH 4 \
  + 1
struct pkt { int a; }; template <int N> class Q { void f() { } };
int helper(int x) { return x; }
// void Hidden() { }
/* void Hidden() { } */
void G(tapa::istreams<pkt, 2>& in, const tapa::mmap<float> m, tapa::ostream<ap_uint<5>> out, const int k, const char* s = "void H() { }") { char c = '{'; }
static const uint32_t WIDE = 8;
void T(tapa::mmap<const uint64_t> m) { tapa::streams<uint8_t, WIDE, (WIDE + 1)> q("q"), r; tapa::stream<int> one; tapa::task().invoke<tapa::detach, WIDE>(G, q, m, r[0], k + 1, "x").invoke(G, r[WIDE]); }
