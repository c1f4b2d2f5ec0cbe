// tapa run examples/bitonic.cpp Bitonic examples/bitonic.json
// Bitonic sort of blocks of eight numbers: six stages in a row, each of which takes a block, swaps pairs that stand the wrong
// way round, and passes it on. Look at `Stage`: one task, invoked six times with another `size` and `distance`; the stages work
// at once, each on another block, so a second block costs as long as one stage and no whole sort.
#include <tapa.h>

const int BLOCK = 8;

void Load(tapa::mmap<const int> numbers, int blocks, tapa::ostream<int>& q) {
  for (int i = 0; i < blocks * BLOCK; ++i) { q << numbers[i]; }
}

void Stage(int size, int distance, int blocks, tapa::istream<int>& in, tapa::ostream<int>& out) {
  int x[BLOCK];
  for (int block = 0; block < blocks; ++block) {
    for (int i = 0; i < BLOCK; ++i) { in >> x[i]; }
    for (int i = 0; i < BLOCK; ++i) {
      int partner = i ^ distance;
      if (partner > i) {
        int low = x[i];
        int high = x[partner];
        if ((low > high) == ((i & size) == 0)) { x[i] = high; x[partner] = low; }
      }
    }
    for (int i = 0; i < BLOCK; ++i) { out << x[i]; }
  }
}

void Store(tapa::istream<int>& q, int blocks, tapa::mmap<int> sorted) {
  for (int i = 0; i < blocks * BLOCK; ++i) { q >> sorted[i]; }
}

void Bitonic(tapa::mmap<const int> numbers, tapa::mmap<int> sorted, int blocks) {
  tapa::streams<int, 7> q("q");
  tapa::task()
    .invoke(Load, numbers, blocks, q[0])
    .invoke(Stage, 2, 1, blocks, q[0], q[1])
    .invoke(Stage, 4, 2, blocks, q[1], q[2])
    .invoke(Stage, 4, 1, blocks, q[2], q[3])
    .invoke(Stage, 8, 4, blocks, q[3], q[4])
    .invoke(Stage, 8, 2, blocks, q[4], q[5])
    .invoke(Stage, 8, 1, blocks, q[5], q[6])
    .invoke(Store, q[6], blocks, sorted);
}
