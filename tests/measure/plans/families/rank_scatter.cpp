void $NAME(tapa::istream<uint64_t>& edges, ${PARAMETER}tapa::ostream<int>& ask, tapa::istream<int>& answer, $OUTS) {
  for (int i = 0; i < EDGES; ++i) {
    uint64_t edge = edges.read();
    $PASSED
    ask << int(edge >> 32);
    uint64_t lane = edge >> 2 & 3;
    uint64_t gift = (edge & 3) << 32 | uint64_t(answer.read());
    $SENT
  }
  ask.close();
  $CLOSED
}
