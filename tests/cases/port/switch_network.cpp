// A switch of two stages that polls its inputs: what it carries depends on timing, so its polls are left.
#include <ap_int.h>
#include <tapa.h>

using pkt_t = uint64_t;
constexpr int kN = 4;

inline bool IsPortOne(pkt_t pkt, int b) { return (pkt >> b) & 1; }

void Switch2x2(int b, tapa::istream<pkt_t>& pkt_in_q0, tapa::istream<pkt_t>& pkt_in_q1, tapa::ostreams<pkt_t, 2>& pkt_out_q) {
  bool valid_0 = false, valid_1 = false;
  bool prioritize_1 = false;
spin:
  for (;;) {
#pragma HLS pipeline II = 1
    pkt_t pkt_0, pkt_1;
    pkt_0 = pkt_in_q0.peek(valid_0);
    pkt_1 = pkt_in_q1.peek(valid_1);
    const bool fwd_0 = valid_0 && (!prioritize_1 || !valid_1);
    if (fwd_0) {
      if (pkt_out_q[IsPortOne(pkt_0, b)].try_write(pkt_0)) pkt_in_q0.read(nullptr);
    } else if (valid_1) {
      if (pkt_out_q[IsPortOne(pkt_1, b)].try_write(pkt_1)) pkt_in_q1.read(nullptr);
    }
    prioritize_1 = !prioritize_1;
  }
}

void Stage(int b, tapa::istreams<pkt_t, kN>& in_q, tapa::ostreams<pkt_t, kN>& out_q) {
  tapa::task().invoke<tapa::detach, kN / 2>(Switch2x2, b, in_q, in_q, out_q);
}

void Produce(tapa::mmap<const pkt_t> mmap_in, uint64_t n, tapa::ostreams<pkt_t, kN>& out_q) {
  for (uint64_t i = 0; i < n; ++i) {
    for (int j = 0; j < kN; ++j) out_q[j].write(mmap_in[i * kN + j]);
  }
}

void Consume(tapa::mmap<pkt_t> mmap_out, uint64_t n, tapa::istreams<pkt_t, kN>& in_q) {
  for (uint64_t i = 0; i < n; ++i) {
    for (int j = 0; j < kN; ++j) mmap_out[i * kN + j] = in_q[j].read();
  }
}

void Network(tapa::mmap<const pkt_t> mmap_in, tapa::mmap<pkt_t> mmap_out, uint64_t n) {
  tapa::streams<pkt_t, kN, 8> q0("q0"), q1("q1"), q2("q2");
  tapa::task().invoke(Produce, mmap_in, n, q0).invoke(Stage, 1, q0, q1).invoke(Stage, 0, q1, q2).invoke(Consume, mmap_out, n, q2);
}
