// Cannon's algorithm on a square of processing elements, in templates over the sizes.
#include <cassert>

#include <tapa.h>

// p x p PEs
const int p = 2;

// Handles kN x kN matrices maximum.
constexpr int kN = 8;

// Scatter n*n matrix into p*p blocks, each block.
void Scatter(tapa::mmap<const int> matrix_ptr, tapa::ostream<int>& block_00, tapa::ostream<int>& block_01, tapa::ostream<int>& block_10, tapa::ostream<int>& block_11) {
  const uint64_t kNumElems = (kN / p) * (kN / p);
  for (int i = 0; i < p; ++i) {
    for (int j = 0; j < p; ++j) {
      for (uint64_t k = 0; k < kNumElems; ++k) {
        const auto at = matrix_ptr[(i * p + j) * kNumElems + k];
        switch (i * p + j) {
          case 0:
            block_00.write(at);
            break;
          case 1:
            block_01.write(at);
            break;
          case 2:
            block_10.write(at);
            break;
          default:
            block_11.write(at);
        }
      }
    }
  }
}

void Gather(tapa::mmap<int> matrix_ptr, tapa::istreams<int, p * p>& blocks) {
  const uint64_t kNumElems = (kN / p) * (kN / p);
  for (int i = 0; i < p; ++i) {
    for (int j = 0; j < p; ++j) {
      for (uint64_t k = 0; k < kNumElems; ++k) {
        matrix_ptr[(i * p + j) * kNumElems + k] = blocks[i * p + j].read();
      }
    }
  }
}

template <int size>
void Multiply(const int (&a)[size][size], const int (&b)[size][size], int (&c)[size][size]) {
  for (int i = 0; i < size; ++i) {
    for (int j = 0; j < size; ++j) {
      int acc = 0;
      for (int k = 0; k < size; ++k) {
#pragma HLS pipeline II = 1
        acc += a[i][k] * b[k][j];
      }
      c[i][j] += acc;
    }
  }
}

void ProcElem(tapa::istream<int>& a_fifo, tapa::istream<int>& b_fifo, tapa::ostream<int>& c_fifo, tapa::ostream<int>& i_prev, tapa::istream<int>& i_next, tapa::ostream<int>& j_prev,
              tapa::istream<int>& j_next) {
  constexpr int kSize = kN / p;
  int a[kSize][kSize];
  int b[kSize][kSize];
  int c[kSize][kSize] = {};
#pragma HLS array_partition variable = a cyclic factor = 2 dim = 2

  // Initialize local a, b, and c.
init:
  for (int i = 0; i < kSize; ++i) {
    for (int j = 0; j < kSize; ++j) {
      a[i][j] = a_fifo.read();
      b[i][j] = b_fifo.read();
    }
  }

  for (int l = 0; l < p; ++l) {
    Multiply<kSize>(a, b, c);
    // Rotate a along rows, and b along columns.
    for (auto& row : a) {
      for (auto& cell : row) {
        j_prev.write(cell);
        cell = j_next.read();
      }
    }
    for (int i = 0; i < kSize; ++i)
      for (int j = 0; j < kSize; ++j) {
        i_prev.write(b[i][j]);
        b[i][j] = i_next.read();
      }
  }

  for (int i = 0; i < kSize; ++i) {
    for (int j = 0; j < kSize; ++j) {
      c_fifo.write(c[i][j]);
    }
  }
}

void Cannon(tapa::mmap<const int> a_vec, tapa::mmap<const int> b_vec, tapa::mmap<int> c_vec) {
  assert(kN % p == 0);
  tapa::stream<int, 2> a_00("a->PE00"), a_01("a->PE01"), a_10("a->PE10"), a_11("a->PE11");
  tapa::stream<int, 2> b_00("b->PE00"), b_01("b->PE01"), b_10("b->PE10"), b_11("b->PE11");
  tapa::streams<int, p * p, 2> c("c");
  tapa::stream<int, 8> i_00_10("PE00->PE10"), i_10_00("PE10->PE00"), i_01_11("PE01->PE11"), i_11_01("PE11->PE01");
  tapa::stream<int, 8> j_00_01("PE00->PE01"), j_01_00("PE01->PE00"), j_10_11("PE10->PE11"), j_11_10("PE11->PE10");

  tapa::task()
      .invoke(Scatter, a_vec, a_00, a_01, a_10, a_11)
      .invoke(Scatter, b_vec, b_00, b_01, b_10, b_11)
      .invoke(ProcElem, a_00, b_00, c[0], i_00_10, i_10_00, j_00_01, j_01_00)
      .invoke(ProcElem, a_01, b_01, c[1], i_01_11, i_11_01, j_01_00, j_00_01)
      .invoke(ProcElem, a_10, b_10, c[2], i_10_00, i_00_10, j_10_11, j_11_10)
      .invoke(ProcElem, a_11, b_11, c[3], i_11_01, i_01_11, j_11_10, j_10_11)
      .invoke(Gather, c_vec, c);
}
