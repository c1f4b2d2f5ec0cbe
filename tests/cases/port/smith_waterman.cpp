// Local alignment of two sequences on a systolic chain: each element has a letter of the query, cells pass along as structs; counted invokes with tapa::seq.
#include <algorithm>

#include <tapa.h>

constexpr int kQuery = 6;
constexpr int kMatch = 2;
constexpr int kMismatch = -1;
constexpr int kGap = 1;

struct Cell {
  char letter;
  int16_t score;
  int16_t best;
};

static int16_t Max4(int16_t a, int16_t b, int16_t c, int16_t d) { return std::max(std::max(a, b), std::max(c, d)); }

void Feed(tapa::mmap<const char> reference, int n, tapa::ostream<Cell>& out) {
  for (int i = 0; i < n; ++i) out.write({reference[i], 0, 0});
  out.close();
}

void Letters(tapa::mmap<const char> query, tapa::ostreams<char, kQuery>& out) {
  for (int i = 0; i < kQuery; ++i) out[i].write(query[i]);
}

void Element(int id, tapa::istream<char>& letter_in, tapa::istream<Cell>& in, tapa::ostream<Cell>& out) {
  const char letter = letter_in.read();
  int16_t diagonal = 0, above = 0;
  int16_t column_best = 0;
  TAPA_WHILE_NOT_EOT(in) {
#pragma HLS pipeline II = 1
    const Cell left = in.read(nullptr);
    const int16_t hit = diagonal + (left.letter == letter ? kMatch : kMismatch);
    const int16_t score = Max4(0, hit, left.score - kGap, above - kGap);
    diagonal = left.score;
    above = score;
    column_best = std::max(column_best, score);
    Cell next = left;
    next.score = score;
    next.best = std::max(left.best, column_best);
    out.write(next);
  }
  in.open();
  out.close();
}

void Finish(tapa::istream<Cell>& in, tapa::mmap<int> out) {
  int best = 0, count = 0;
  TAPA_WHILE_NOT_EOT(in) {
    const auto cell = in.read(nullptr);
    best = std::max<int>(best, cell.best);
    ++count;
  }
  in.open();
  out[0] = best;
  out[1] = count;
}

void SmithWaterman(tapa::mmap<const char> query, tapa::mmap<const char> reference, tapa::mmap<int> out, int n) {
  tapa::streams<char, kQuery> letters("letters");
  tapa::streams<Cell, kQuery + 1, 4> cells("cells");
  tapa::task()
      .invoke(Letters, query, letters)
      .invoke(Feed, reference, n, cells)
      .invoke<tapa::join, kQuery>(Element, tapa::seq(), letters, cells, cells)
      .invoke(Finish, cells, out);
}
