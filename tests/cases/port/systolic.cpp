// A systolic array for C = A * B as a polyhedral compiler writes it: modules for I/O of two levels with double buffers, processing elements, drains.
#include <ap_int.h>
#include <tapa.h>

typedef int A_t1;
typedef tapa::vec_t<int, 2> A_t2;
typedef int B_t1;
typedef tapa::vec_t<int, 2> B_t2;
typedef int C_t1;

#define ROWS 2
#define COLS 2
#define TILES 2
#define DEPTH 4

/* Module Definition */
void A_IO_L3_in(tapa::mmap<const A_t2> A, tapa::ostream<A_t2>& fifo_A_local_out) {
#pragma HLS INLINE OFF
  for (ap_uint<2> c0 = 0; c0 < TILES; c0 += 1)
    for (ap_uint<3> c3 = 0; c3 < ROWS; c3 += 1)
      for (ap_uint<3> c5 = 0; c5 < DEPTH / 2; c5 += 1) {
#pragma HLS PIPELINE II = 1
        A_t2 fifo_data;
        fifo_data = A[(c0 * ROWS + c3) * (DEPTH / 2) + c5];
        fifo_A_local_out.write(fifo_data);
      }
}

void A_IO_L2_in_intra_trans(int idx, A_t2 local_A[DEPTH / 2], tapa::ostream<A_t2>& fifo_A_local_out, bool intra_trans_en) {
#pragma HLS INLINE
  if (!intra_trans_en) return;
  for (int c6 = 0; c6 < COLS; c6++)
    for (int c5 = 0; c5 < DEPTH / 2; c5++) {
      fifo_A_local_out.write(local_A[c5]);
    }
}

void A_IO_L2_in_inter_trans(int idx, A_t2 local_A[DEPTH / 2], tapa::istream<A_t2>& fifo_A_in, tapa::ostream<A_t2>& fifo_A_out, bool inter_trans_en) {
#pragma HLS INLINE
  if (!inter_trans_en) return;
  for (ap_uint<3> c3 = idx; c3 < ROWS; c3 += 1) {
    for (int c5 = 0; c5 < DEPTH / 2; c5++) {
      A_t2 fifo_data = fifo_A_in.read();
      if (c3 == idx) {
        local_A[c5] = fifo_data;
      } else {
        fifo_A_out.write(fifo_data);
      }
    }
  }
}

void A_IO_L2_in(int idx, tapa::istream<A_t2>& fifo_A_in, tapa::ostream<A_t2>& fifo_A_out, tapa::ostream<A_t2>& fifo_A_local_out) {
  A_t2 local_A_ping[DEPTH / 2];
  A_t2 local_A_pong[DEPTH / 2];
  bool arb = 0;
  bool inter_trans_en = 1;
  bool intra_trans_en = 0;
  for (int c0 = 0; c0 < TILES; c0++) {
    if (arb == 0) {
      A_IO_L2_in_inter_trans(idx, local_A_pong, fifo_A_in, fifo_A_out, inter_trans_en);
      A_IO_L2_in_intra_trans(idx, local_A_ping, fifo_A_local_out, intra_trans_en);
    } else {
      A_IO_L2_in_inter_trans(idx, local_A_ping, fifo_A_in, fifo_A_out, inter_trans_en);
      A_IO_L2_in_intra_trans(idx, local_A_pong, fifo_A_local_out, intra_trans_en);
    }
    intra_trans_en = 1;
    arb = !arb;
  }
  if (arb == 0) {
    A_IO_L2_in_intra_trans(idx, local_A_ping, fifo_A_local_out, intra_trans_en);
  } else {
    A_IO_L2_in_intra_trans(idx, local_A_pong, fifo_A_local_out, intra_trans_en);
  }
}

void B_IO_L2_in(int idx, tapa::mmap<const B_t1> B, tapa::ostream<B_t2>& fifo_B_local_out) {
  B_t1 column[DEPTH];
  for (int c0 = 0; c0 < TILES; c0++) {
    for (int c5 = 0; c5 < DEPTH; c5++) column[c5] = B[c5 * COLS + idx];
    for (int c6 = 0; c6 < COLS; c6++) {
      for (int c5 = 0; c5 < DEPTH; c5 += 2) {
        B_t2 pair;
        pair[0] = column[c5];
        pair[1] = column[c5 + 1];
        fifo_B_local_out.write(pair);
      }
    }
  }
}

void PE(int idx, int idy, tapa::istream<A_t2>& fifo_A_in, tapa::istream<B_t2>& fifo_B_in, tapa::ostream<C_t1>& fifo_C_drain_out) {
  C_t1 local_C[COLS];
#pragma HLS ARRAY_PARTITION variable = local_C dim = 0 complete
  for (int c0 = 0; c0 < TILES; c0++) {
    for (int c6 = 0; c6 < COLS; c6++) {
      for (int c5 = 0; c5 < DEPTH / 2; c5++) {
        A_t1 local_A[1][2];
        B_t1 local_B[1][2];
        {
          A_t2 fifo_data = fifo_A_in.read();
          for (int n = 0; n < 2; n++) {
#pragma HLS UNROLL
            local_A[0][n] = fifo_data[n];
          }
        }
        {
          B_t2 fifo_data = fifo_B_in.read();
          for (int n = 0; n < 2; n++) {
#pragma HLS UNROLL
            local_B[0][n] = fifo_data[n];
          }
        }
        if (c5 == 0) {
          // hls_unroll
          local_C[c6] = 0;
        }
        for (int c8 = 0; c8 <= 1; c8 += 1) local_C[c6] = (local_C[c6] + (local_A[0][c8] * local_B[0][c8]));
        if (c5 == DEPTH / 2 - 1) fifo_C_drain_out.write(local_C[c6]);
      }
    }
  }
}

void C_drain(tapa::istreams<C_t1, ROWS>& fifo_C, tapa::mmap<C_t1> C) {
  for (int c0 = 0; c0 < TILES; c0++) {
    for (int c3 = 0; c3 < ROWS; c3++) {
      for (int c6 = 0; c6 < COLS; c6++) {
        C[(c0 * ROWS + c3) * COLS + c6] = fifo_C[c3].read();
      }
    }
  }
}

void A_dummy_in(tapa::istream<A_t2>& fifo_A_in) {
  for (;;) fifo_A_in.read();
}

void kernel0(tapa::mmap<const A_t2> A, tapa::mmap<const B_t1> B_0, tapa::mmap<const B_t1> B_1, tapa::mmap<C_t1> C) {
  tapa::stream<A_t2, 2> fifo_A_0("fifo_A_0"), fifo_A_1("fifo_A_1"), fifo_A_2("fifo_A_2");
  tapa::streams<A_t2, ROWS, 2> fifo_A_local("fifo_A_local");
  tapa::streams<B_t2, ROWS, 2> fifo_B_local("fifo_B_local");
  tapa::streams<C_t1, ROWS, 4> fifo_C("fifo_C");

  tapa::task()
      .invoke(A_IO_L3_in, A, fifo_A_0)
      .invoke(A_IO_L2_in, 0, fifo_A_0, fifo_A_1, fifo_A_local[0])
      .invoke(A_IO_L2_in, 1, fifo_A_1, fifo_A_2, fifo_A_local[1])
      .invoke<tapa::detach>(A_dummy_in, fifo_A_2)
      .invoke(B_IO_L2_in, 0, B_0, fifo_B_local[0])
      .invoke(B_IO_L2_in, 1, B_1, fifo_B_local[1])
      .invoke(PE, 0, 0, fifo_A_local[0], fifo_B_local[0], fifo_C[0])
      .invoke(PE, 1, 0, fifo_A_local[1], fifo_B_local[1], fifo_C[1])
      .invoke(C_drain, fifo_C, C);
}
