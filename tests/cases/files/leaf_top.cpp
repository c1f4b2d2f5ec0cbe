void T(tapa::mmap<int> m, tapa::mmap<uint64_t> w, int n, bool b) {
  tapa::stream<int, 3> q; tapa::stream<int16_t> r;
  tapa::task().invoke<tapa::detach>(F, q).invoke(L, q, m, n, r, w, b).invoke<tapa::detach>(S, r);
}
