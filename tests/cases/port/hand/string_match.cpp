// Occurrences of a pattern by hand: the failure table is built once, and each line is a transaction.
#include <tapa.h>

void ReadText(tapa::mmap<const int8_t> text, int n, tapa::ostream<int8_t>& out) {
  for (int i = 0; i < n; ++i) {
    int8_t c = text[i];
    if (c == 10) { out.close(); } else { out << c; }
  }
  out.close();
}

void Match(tapa::mmap<const int8_t> pattern, int m, int lines, tapa::istream<int8_t>& text, tapa::ostream<int>& found) {
  int8_t p[8];
  int8_t fail[9];
  for (int i = 0; i < m; ++i) { p[i] = pattern[i]; }
  fail[0] = -1;
  int k = -1;
  for (int i = 1; i <= m; ++i) {
    while (k >= 0 && p[k] != p[i - 1]) { k = fail[k]; }
    ++k;
    fail[i] = k;
    if (i == 1) {
      k = 0;
      fail[i] = 0;
    }
  }
  for (int line = 0; line < lines; ++line) {
    k = 0;
    for (int at = 0; !text.eot(nullptr); ++at) {
      int8_t c = text.read();
      while (k >= 0 && (k == m || p[k] != c)) { k = fail[k]; }
      ++k;
      if (k == m) { found << at - m + 1; }
    }
    text.open();
    found.close();
  }
}

void Collect(int lines, tapa::istream<int>& found, tapa::mmap<int> out) {
  int at = 0;
  for (int line = 0; line < lines; ++line) {
    int count = 0;
    int header = at;
    ++at;
    TAPA_WHILE_NOT_EOT(found) {
      out[at] = found.read();
      ++at;
      ++count;
    }
    found.open();
    out[header] = count;
  }
}

void StringMatch(tapa::mmap<const int8_t> text, tapa::mmap<const int8_t> pattern, tapa::mmap<int> out, int n, int m, int lines) {
  tapa::stream<int8_t, 8> letters("letters");
  tapa::stream<int, 4> found("found");
  tapa::task().invoke(ReadText, text, n, letters).invoke(Match, pattern, m, lines, letters, found).invoke(Collect, lines, found, out);
}
