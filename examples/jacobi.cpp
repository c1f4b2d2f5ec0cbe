// tapa run examples/jacobi.cpp Jacobi examples/jacobi.json
// Two sweeps of Jacobi's method over a grid of 6 columns: a cell becomes the mean of itself, four times, and its four
// neighbours; those at the border stay. Look at `Sweep`: it keeps four rows in an array, so that each cell is read once, and
// writes the row before the one that it reads; and at the two of them in a row, which work at once on different rows: a
// third sweep is one more line.
#include <tapa.h>

const int WIDTH = 6;
const int ROWS = 4;   // rows that are kept: a power of two, so that a row's place is `row & 3`

void Load(tapa::mmap<const int> grid, int height, tapa::ostream<int>& cells) {
  for (int i = 0; i < height * WIDTH; ++i) { cells << grid[i]; }
}

void Sweep(int height, tapa::istream<int>& in, tapa::ostream<int>& out) {
  int rows[(ROWS * WIDTH)];
  for (int row = 0; row <= height; ++row) {
    for (int column = 0; column < WIDTH; ++column) {
      if (row < height) { in >> rows[(row & 3) * WIDTH + column]; }
      if (row > 0) {
        int at = (row - 1 & 3) * WIDTH + column;
        if (row == 1 || row == height || column == 0 || column == WIDTH - 1) { out << rows[at]; }
        else {
          int beside = rows[at - 1] + rows[at + 1];
          int above = rows[(row - 2 & 3) * WIDTH + column];
          out << (4 * rows[at] + beside + above + rows[(row & 3) * WIDTH + column] >> 3);
        }
      }
    }
  }
}

void Store(int height, tapa::istream<int>& cells, tapa::mmap<int> swept) {
  for (int i = 0; i < height * WIDTH; ++i) { cells >> swept[i]; }
}

void Jacobi(tapa::mmap<const int> grid, tapa::mmap<int> swept, int height) {
  tapa::streams<int, 3> cells("cells");
  tapa::task()
    .invoke(Load, grid, height, cells[0])
    .invoke(Sweep, height, cells[0], cells[1])
    .invoke(Sweep, height, cells[1], cells[2])
    .invoke(Store, height, cells[2], swept);
}
