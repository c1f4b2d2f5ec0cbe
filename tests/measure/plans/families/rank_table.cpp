void $NAME(tapa::istream<int>& ranks, tapa::istream<int>& weights, ${PARAMETER}tapa::istream<int>& ask, tapa::ostream<int>& answer) {
  int gives[PAGES];
  for (int i = 0; i < PAGES; ++i) {
    int weight = weights.read();
    $PASSED
    gives[i] = ranks.read() * weight >> 16;
  }
  TAPA_WHILE_NOT_EOT(ask) { answer << gives[ask.read()]; }
  ask.open();
}
