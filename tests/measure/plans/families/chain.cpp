const int TEXT = $TEXT;
void LoadQuery(tapa::mmap<const uint8_t> m, int n, tapa::ostream<uint8_t>& q) { for (int i = 0; i < n; ++i) { q << m[i]; } }
void LoadText(tapa::mmap<const uint8_t> m, tapa::ostream<uint8_t>& letters, tapa::ostream<int>& scores, tapa::ostream<int>& best) {
  for (int i = 0; i < TEXT; ++i) { letters << m[i]; scores << 0; }
  best << 0;
}
void Cell(tapa::istream<uint8_t>& query, tapa::istream<uint8_t>& letters, tapa::istream<int>& scores, tapa::istream<int>& best,
          tapa::ostream<uint8_t>& query_on, tapa::ostream<uint8_t>& letters_on, tapa::ostream<int>& scores_on, tapa::ostream<int>& best_on, int more) {
  uint8_t mine = query.read();
  for (int i = 0; i < more; ++i) { query_on << query.read(); }
  int left = 0;
  int corner = 0;
  int most = 0;
  for (int i = 0; i < TEXT; ++i) {
    uint8_t letter = letters.read();
    int up = scores.read();
    int score = corner + (letter == mine ? $MATCH : $OTHER);
    score = score > up + $GAP ? score : up + $GAP;
    score = score > left + $GAP ? score : left + $GAP;
    score = score > 0 ? score : 0;
    most = score > most ? score : most;
    corner = up;
    left = score;
    letters_on << letter;
    scores_on << score;
  }
  int before = best.read();
  best_on << (before > most ? before : most);
}
void Store(tapa::istream<uint8_t>& query, tapa::istream<uint8_t>& letters, tapa::istream<int>& scores, tapa::istream<int>& best, tapa::mmap<int> m) {
  for (int i = 0; i < TEXT; ++i) { letters.read(); scores.read(); }
  query.read();
  m[0] = best.read();
}
