void Ask(tapa::ostream<int>& q, tapa::istream<int>& r) { for (int i = 0; i < 100; ++i) { q << -i; int x = r.read(); } }
void Pass(tapa::istream<int>& a, tapa::ostream<int>& b) { for (;;) b << a.read(); }
void T() { tapa::stream<int> q, between, r; tapa::task().invoke(Ask, q, r).invoke<tapa::detach>(Pass, q, between).invoke<tapa::detach>(Pass, between, r); }
