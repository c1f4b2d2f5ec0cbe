// tapa run examples/systolic.cpp Product examples/systolic.json
// The product of two 2 by 2 matrices on a systolic array: four cells, each of which multiplies what comes from the left
// and from above, adds it up, and passes both on. Look at `Cell`: one task, invoked four times, and the flat program's
// instances are named by it (`Cell$2` to `Cell$5`); and at the drains, which take what leaves the array at its edges: one
// line with a count invokes N of them, each with its element of `right`.
#include <tapa.h>

const int N = 2;
const int CELLS = 4;

void Rows(tapa::mmap<const int> a, tapa::ostream<int>& row_0, tapa::ostream<int>& row_1) {
  for (int k = 0; k < N; ++k) { row_0 << a[k]; row_1 << a[N + k]; }
}

void Columns(tapa::mmap<const int> b, tapa::ostream<int>& column_0, tapa::ostream<int>& column_1) {
  for (int k = 0; k < N; ++k) { column_0 << b[k * N]; column_1 << b[k * N + 1]; }
}

void Cell(tapa::istream<int>& left, tapa::istream<int>& above, tapa::ostream<int>& right, tapa::ostream<int>& below,
          tapa::ostream<int>& sum) {
  int total = 0;
  for (int k = 0; k < N; ++k) {
    int x = left.read();
    int y = above.read();
    total += x * y;
    right << x;
    below << y;
  }
  sum << total;
}

void Drain(tapa::istream<int>& edge) {
  for (int k = 0; k < N; ++k) { edge.read(); }
}

void Collect(tapa::istream<int>& s00, tapa::istream<int>& s01, tapa::istream<int>& s10, tapa::istream<int>& s11,
             tapa::mmap<int> c) {
  s00 >> c[0]; s01 >> c[1]; s10 >> c[2]; s11 >> c[3];
}

void Product(tapa::mmap<const int> a, tapa::mmap<const int> b, tapa::mmap<int> c) {
  tapa::streams<int, N> left("left"), middle("middle"), right("right");   // along the rows: an element for each row
  tapa::streams<int, N> top("top"), inner("inner"), bottom("bottom");     // down the columns: an element for each column
  tapa::streams<int, CELLS> sums("sums");
  tapa::task()
    .invoke(Rows, a, left[0], left[1])
    .invoke(Columns, b, top[0], top[1])
    .invoke(Cell, left[0], top[0], middle[0], inner[0], sums[0])
    .invoke(Cell, middle[0], top[1], right[0], inner[1], sums[1])
    .invoke(Cell, left[1], inner[0], middle[1], bottom[0], sums[2])
    .invoke(Cell, middle[1], inner[1], right[1], bottom[1], sums[3])
    .invoke<tapa::join, N>(Drain, right)
    .invoke<tapa::join, N>(Drain, bottom)
    .invoke(Collect, sums[0], sums[1], sums[2], sums[3], c);
}
