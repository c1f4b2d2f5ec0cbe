void Give(tapa::ostream<int>& work, tapa::ostream<int>& past) {
  for (int i = 0; i < 40; ++i) {
    int x = i;
    for (int w = 0; w < 2; ++w) x += w;
    work << x; past << i;
  }
}
void Sum(tapa::istream<int>& work, tapa::ostream<int>& sums) {
  for (int k = 0; k < 5; ++k) {
    int s = 0;
    for (int i = 0; i < 8; ++i) s += work.read();
    for (int w = 0; w < 16; ++w) s = s * 3 + w;
    for (int i = 0; i < 8; ++i) sums << s;
  }
}
void Join(tapa::istream<int>& sums, tapa::istream<int>& past) { for (int i = 0; i < 40; ++i) { int both = sums.read() + past.read(); } }
void T() {
  tapa::stream<int, 16> work, sums;
  tapa::stream<int, 9> past("past");
  tapa::task().invoke(Give, work, past).invoke(Sum, work, sums).invoke(Join, sums, past);
}
