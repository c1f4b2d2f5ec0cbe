const int EDGES = $EDGES;
const int PAGES = $PAGES;
void LoadEdges(tapa::mmap<const uint64_t> m, tapa::ostream<uint64_t>& q) { for (int i = 0; i < EDGES; ++i) { q << m[i]; } }
void LoadPages(tapa::mmap<const int> m, tapa::ostream<int>& ranks, tapa::ostream<int>& weights) {
  for (int i = 0; i < PAGES; ++i) { ranks << $FIRST; weights << m[i]; }
}
${SCATTERS}${TABLES}void Gather($INS, tapa::ostream<int>& ranks) {
  int sum[PAGES];
$ADDED
  for (int i = 0; i < PAGES; ++i) { ranks << $BASE + (sum[i] * 27 >> 5); }
}
void Store(tapa::istream<int>& ranks, tapa::mmap<int> m) { for (int i = 0; i < PAGES; ++i) { m[i] = ranks.read(); } }
