// Occurrences of a pattern in a text by a failure table; text as characters, positions as transactions, one for each line.
#include <cstdint>

#include <tapa.h>

constexpr int kPattern = 8;

void ReadText(tapa::mmap<const char> text, int n, tapa::ostream<char>& out) {
  for (int i = 0; i < n; ++i) {
    const char c = text[i];
    if (c == '\n') {
      out.close();
    } else {
      out << c;
    }
  }
  out.close();
}

void Match(tapa::mmap<const char> pattern, int m, int lines, tapa::istream<char>& text, tapa::ostream<int32_t>& found) {
  char p[kPattern];
  int8_t fail[kPattern + 1];
  for (int i = 0; i < m; ++i) p[i] = pattern[i];
  fail[0] = -1;
  for (int i = 1, k = -1; i <= m; ++i) {
    while (k >= 0 && p[k] != p[i - 1]) k = fail[k];
    fail[i] = ++k;
    if (i == 1) fail[i] = k = 0;
  }
  for (int line = 0; line < lines; ++line) {
    int k = 0;
    for (int32_t at = 0; !text.eot(nullptr); ++at) {
      const char c = text.read();
      while (k >= 0 && (k == m || p[k] != c)) k = fail[k];
      ++k;
      if (k == m) found.write(at - m + 1);
    }
    text.open();
    found.close();
  }
}

void Collect(int lines, tapa::istream<int32_t>& found, tapa::mmap<int32_t> out) {
  int at = 0;
  for (int line = 0; line < lines; ++line) {
    int count = 0;
    const int header = at++;
    TAPA_WHILE_NOT_EOT(found) {
      out[at++] = found.read(nullptr);
      count += 1;
    }
    found.open();
    out[header] = count;
  }
}

void StringMatch(tapa::mmap<const char> text, tapa::mmap<const char> pattern, tapa::mmap<int32_t> out, int n, int m, int lines) {
  tapa::stream<char, 8> letters("letters");
  tapa::stream<int32_t, 4> found("found");
  tapa::task().invoke(ReadText, text, n, letters).invoke(Match, pattern, m, lines, letters, found).invoke(Collect, lines, found, out);
}
