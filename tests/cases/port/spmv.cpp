// A sparse matrix times a vector, by channels of packed elements (row, column, value), with accumulators that are cut by rows.
#include <cstdint>

#include <tapa.h>

constexpr int NUM_CH = 2;
constexpr int WINDOW = 32;
constexpr int ROWS_PER_CH = 16;

struct Element {
  uint16_t row;
  uint16_t col;
  int32_t val;
};
using Pair = tapa::vec_t<uint64_t, 2>;

inline Element Unpack(uint64_t word) {
  Element e;
  e.row = word & 0xffff;
  e.col = (word >> 16) & 0xffff;
  e.val = static_cast<int32_t>(word >> 32);
  return e;
}

void read_A(tapa::async_mmap<Pair>& A, const int len, tapa::ostream<Pair>& fifo_A) {
rd_A:
  for (int i_req = 0, i_resp = 0; i_resp < len;) {
#pragma HLS loop_tripcount min = 1 max = 10000
#pragma HLS pipeline II = 1
    if (i_req < len && !A.read_addr.full()) {
      A.read_addr.try_write(i_req);
      ++i_req;
    }
    Pair tmp;
    bool success = false;
    if (!fifo_A.full() && !A.read_data.empty()) {
      tmp = A.read_data.read(nullptr);
      fifo_A.try_write(tmp);
      ++i_resp;
    }
  }
}

void read_X(tapa::mmap<const int> X, int cols, tapa::ostreams<int, NUM_CH>& fifo_X) {
  for (int i = 0; i < cols; ++i) {
    int x = X[i];
    for (int c = 0; c < NUM_CH; ++c) fifo_X[c] << x;
  }
}

void PEcore(int pe, int len, int cols, tapa::istream<int>& fifo_X, tapa::istream<Pair>& fifo_A, tapa::ostream<int64_t>& fifo_Y) {
  int local_X[WINDOW];
  int64_t local_Y[ROWS_PER_CH];
init_Y:
  for (int i = 0; i < ROWS_PER_CH; ++i) local_Y[i] = 0;
read_window:
  for (int i = 0; i < cols; ++i) fifo_X >> local_X[i];
main:
  for (int i = 0; i < len; ++i) {
    const Pair pair = fifo_A.read();
    for (int p = 0; p < 2; ++p) {
#pragma HLS unroll
      auto e = Unpack(pair[p]);
      if (e.val != 0) {
        local_Y[e.row % ROWS_PER_CH] += int64_t(e.val) * local_X[e.col % WINDOW];
      }
    }
  }
  for (int i = 0; i < ROWS_PER_CH; ++i) {
    fifo_Y << local_Y[i] + (pe == 0 ? 0 : 0);
  }
}

void write_Y(int alpha, int beta, tapa::istreams<int64_t, NUM_CH>& fifo_Y, tapa::mmap<int64_t> Y) {
  for (int i = 0; i < ROWS_PER_CH; ++i) {
    for (int c = 0; c < NUM_CH; ++c) {
      auto y = fifo_Y[c].read();
      const int at = i * NUM_CH + c;
      Y[at] = alpha * y + beta * Y[at];
    }
  }
}

void Spmv(tapa::mmaps<Pair, NUM_CH> A, tapa::mmap<const int> X, tapa::mmap<int64_t> Y, int len, int cols, int alpha, int beta) {
  tapa::streams<Pair, NUM_CH, 4> fifo_A("fifo_A");
  tapa::streams<int, NUM_CH, 4> fifo_X("fifo_X");
  tapa::streams<int64_t, NUM_CH, 4> fifo_Y("fifo_Y");
  tapa::task()
      .invoke<tapa::join, NUM_CH>(read_A, A, len, fifo_A)
      .invoke(read_X, X, cols, fifo_X)
      .invoke<tapa::join, NUM_CH>(PEcore, tapa::seq(), len, cols, fifo_X, fifo_A, fifo_Y)
      .invoke(write_Y, alpha, beta, fifo_Y, Y);
}
