// Elimination modulo a prime on a triangular array: each element has a row, passes the others on, and tells a pivot; exact, without fractions.
#include <cstdint>

#include <tapa.h>

constexpr int kSize = 4;
constexpr int32_t kPrime = 8191;

static int32_t Reduce(int64_t x) {
  // by folding: 2^13 = 1 modulo the prime
  x = (x & kPrime) + (x >> 13);
  x = (x & kPrime) + (x >> 13);
  x = (x & kPrime) + (x >> 13);
  return x >= kPrime ? x - kPrime : x;
}

static int32_t Inverse(int32_t a) {
  int32_t result = 1;
  int32_t power = a;
  for (int32_t e = kPrime - 2; e > 0; e >>= 1) {
    if (e & 1) result = Reduce(int64_t(result) * power);
    power = Reduce(int64_t(power) * power);
  }
  return result;
}

struct Row {
  int32_t cells[kSize + 1];
};

void Feed(tapa::mmap<const int32_t> matrix, tapa::ostream<Row>& out) {
  for (int r = 0; r < kSize; ++r) {
    Row row;
    for (int c = 0; c <= kSize; ++c) row.cells[c] = Reduce(matrix[r * (kSize + 1) + c]);
    out.write(row);
  }
  out.close();
}

template <int column>
void Eliminate(tapa::istream<Row>& in, tapa::ostream<Row>& out, tapa::ostream<Row>& pivot_out) {
  Row pivot;
  bool has_pivot = false;
  TAPA_WHILE_NOT_EOT(in) {
    Row row = in.read(nullptr);
    if (!has_pivot && row.cells[column] != 0) {
      const int32_t inverse = Inverse(row.cells[column]);
      for (int c = 0; c <= kSize; ++c) pivot.cells[c] = Reduce(int64_t(row.cells[c]) * inverse);
      has_pivot = true;
      continue;
    }
    const int32_t factor = row.cells[column];
    for (int c = 0; c <= kSize; ++c) {
      row.cells[c] = Reduce(row.cells[c] + int64_t(kPrime - pivot.cells[c]) * factor);
    }
    out.write(row);
  }
  in.open();
  if (!has_pivot) {
    for (int c = 0; c <= kSize; ++c) pivot.cells[c] = 0;
  }
  pivot_out.write(pivot);
  out.close();
}

void Drop(tapa::istream<Row>& in) {
  while (!in.eot(nullptr)) in.read(nullptr);
  in.open();
}

void BackSubstitute(tapa::istreams<Row, kSize>& pivots, tapa::mmap<int32_t> solution) {
  int32_t rows[kSize][kSize + 1];
  for (int r = 0; r < kSize; ++r) {
    const Row row = pivots[r].read();
    for (int c = 0; c <= kSize; ++c) rows[r][c] = row.cells[c];
  }
  int32_t x[kSize] = {0};
  for (int r = kSize - 1; r >= 0; --r) {
    int32_t acc = rows[r][kSize];
    for (int c = r + 1; c < kSize; ++c) acc = Reduce(acc + int64_t(kPrime - rows[r][c]) * x[c]);
    x[r] = acc;
    solution[r] = acc;
  }
}

void Gaussian(tapa::mmap<const int32_t> matrix, tapa::mmap<int32_t> solution) {
  tapa::streams<Row, kSize + 1, 2> rows("rows");
  tapa::streams<Row, kSize, 2> pivots("pivots");
  tapa::task()
      .invoke(Feed, matrix, rows[0])
      .invoke(Eliminate<0>, rows[0], rows[1], pivots[0])
      .invoke(Eliminate<1>, rows[1], rows[2], pivots[1])
      .invoke(Eliminate<2>, rows[2], rows[3], pivots[2])
      .invoke(Eliminate<3>, rows[3], rows[4], pivots[3])
      .invoke(Drop, rows[4])
      .invoke(BackSubstitute, pivots, solution);
}
