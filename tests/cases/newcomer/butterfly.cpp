#include <ap_int.h>
#include <tapa.h>

// A switch of four inputs and four outputs in two stages; bits of a packet's lower half say where it goes.
using pkt_t = uint64_t;
constexpr int kN = 4;
constexpr int kStage = kN / 2;

inline bool Bit(pkt_t pkt, int b) { return (pkt >> b & 1) != 0; }

void Switch2x2(int b, tapa::istreams<pkt_t, 2>& in, tapa::ostreams<pkt_t, 2>& out) {
  while (true) {
    for (int port = 0; port < 2; ++port) {
      pkt_t pkt;
      if (in[port].try_read(pkt)) {
        if (Bit(pkt, b)) out[1].write(pkt);
        else out[0].write(pkt);
      }
    }
  }
}

void Produce(tapa::mmap<const pkt_t> from, tapa::ostreams<pkt_t, kN>& out) {
  for (int i = 0; i < kN; ++i) {
    out[0].write(from[i * 4]);
    out[1].write(from[i * 4 + 1]);
    out[2].write(from[i * 4 + 2]);
    out[3].write(from[i * 4 + 3]);
  }
}

void Consume(tapa::mmap<pkt_t> to, tapa::istreams<pkt_t, kN>& in) {
  for (int i = 0; i < kN; ++i) {
    to[i * 4] = in[0].read();
    to[i * 4 + 1] = in[1].read();
    to[i * 4 + 2] = in[2].read();
    to[i * 4 + 3] = in[3].read();
  }
}

void Butterfly(tapa::mmap<const pkt_t> from, tapa::mmap<pkt_t> to) {
  tapa::streams<pkt_t, kN, 16> q0("q0"), q1("q1"), q2("q2");
  tapa::task()
      .invoke(Produce, from, q0)
      .invoke<tapa::detach>(Switch2x2, 1, q0[0], q0[2], q1[0], q1[2])
      .invoke<tapa::detach>(Switch2x2, 1, q0[1], q0[3], q1[1], q1[3])
      .invoke<tapa::detach>(Switch2x2, 0, q1[0], q1[1], q2[0], q2[1])
      .invoke<tapa::detach>(Switch2x2, 0, q1[2], q1[3], q2[2], q2[3])
      .invoke(Consume, to, q2);
}
