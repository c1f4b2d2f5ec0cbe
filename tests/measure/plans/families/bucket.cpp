const int CELLS = $CELLS;
void Load(tapa::mmap<const int> m, int n, tapa::ostream<int>& q) { for (int i = 0; i < n; ++i) { q << m[i]; } }
void Classify(tapa::istream<int>& in, int n, $OUTS) {
  for (int i = 0; i < n; ++i) {
    int x = in.read();
    int b = x >> 5 & 7;
    $CASES
  }
  $CLOSED
}
void Merge($INS, tapa::ostream<int>& out) {
$TAKEN
  out.close();
}
void Sort(tapa::istream<int>& in, tapa::ostream<int>& out) {
  int kept[CELLS];
  int count = 0;
  TAPA_WHILE_NOT_EOT(in) {
    int x = in.read();
    int at = count;
    while (at > 0 && kept[at - 1] > x) {
      kept[at] = kept[at - 1];
      at -= 1;
    }
    kept[at] = x;
    count += 1;
  }
  in.open();
  for (int i = 0; i < count; ++i) { out << kept[i]; }
  out.close();
}
void Store(tapa::istream<int>& in, tapa::mmap<int> m) {
  int i = 0;
  TAPA_WHILE_NOT_EOT(in) {
    m[i] = in.read();
    i += 1;
  }
  in.open();
}
