using namespace tapa;
constexpr int taps[2] = {1, 2};
void P(ostream<int>& q) { int x[2] = {0, 1}; q << x[0] + taps[1]; }
void C(istream<int>& q) { q.read(); }
void T() {
  stream<int> q("q");
  task().invoke(P, q).invoke(C, q);
}
void U() {
  tapa::streams<int, 3> r, s;
  tapa::task().invoke<tapa::join, 2>(P, r).invoke(P, r).invoke<tapa::join, 3>(C, r)
    .invoke<tapa::join, 3>(P, s).invoke<tapa::join, 3>(C, s);
}
struct Req { int at; bool last; };
void D(tapa::ostream<Req>& q, int n) {
  if (n == 0) { q << n; } else if (int x = n + 1) { q << x; }
  q.write(Req{0, true});
}
