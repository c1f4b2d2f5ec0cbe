// tapa run examples/butterfly.cpp Butterfly examples/butterfly.json
// A switch of four ports: two stages of two switches, each of which sends a packet on by one bit of its port. A packet is a
// number whose lowest two bits name the port. In each round a stream has some packets and an end of transaction, so a switch
// knows that a round is over without looking whether a stream is empty. Look at `tapa::detach`: switches never end, and the run
// is done when `Collect` has all rounds; and at ROOM, the depth: with 2 the second stage waits for the first one for good.
#include <tapa.h>

const int PORTS = 4;
const int ROOM = 8;   // a round has up to four packets in one stream, and an end

void Deal(tapa::mmap<const int> packets, uint64_t rounds, tapa::ostream<int>& p_0, tapa::ostream<int>& p_1,
          tapa::ostream<int>& p_2, tapa::ostream<int>& p_3) {
  for (uint64_t at = 0; at < rounds << 2; at += 4) {
    p_0 << packets[at];
    p_0.close();
    p_1 << packets[at + 1];
    p_1.close();
    p_2 << packets[at + 2];
    p_2.close();
    p_3 << packets[at + 3];
    p_3.close();
  }
}

void Switch(int bit, tapa::istream<int>& in_0, tapa::istream<int>& in_1, tapa::ostream<int>& out_0,
            tapa::ostream<int>& out_1) {
  while (true) {
    TAPA_WHILE_NOT_EOT(in_0) {
      int packet = in_0.read();
      if (packet >> bit & 1) { out_1 << packet; } else { out_0 << packet; }
    }
    in_0.open();
    TAPA_WHILE_NOT_EOT(in_1) {
      int packet = in_1.read();
      if (packet >> bit & 1) { out_1 << packet; } else { out_0 << packet; }
    }
    in_1.open();
    out_0.close();
    out_1.close();
  }
}

// What came to a port: its packets in one memory, one behind the other, and behind them how many there are.
void Collect(tapa::istream<int>& q_0, tapa::istream<int>& q_1, tapa::istream<int>& q_2, tapa::istream<int>& q_3,
             uint64_t rounds, tapa::mmap<int> sorted, tapa::mmap<int> counts) {
  uint64_t at = 0;
  int count[PORTS];
  for (uint64_t i = 0; i < rounds; ++i) {
    TAPA_WHILE_NOT_EOT(q_0) { q_0 >> sorted[at]; ++at; count[0] += 1; }
    q_0.open();
    TAPA_WHILE_NOT_EOT(q_1) { q_1 >> sorted[at]; ++at; count[1] += 1; }
    q_1.open();
    TAPA_WHILE_NOT_EOT(q_2) { q_2 >> sorted[at]; ++at; count[2] += 1; }
    q_2.open();
    TAPA_WHILE_NOT_EOT(q_3) { q_3 >> sorted[at]; ++at; count[3] += 1; }
    q_3.open();
  }
  for (int port = 0; port < PORTS; ++port) { counts[port] = count[port]; }
}

void Butterfly(tapa::mmap<const int> packets, tapa::mmap<int> sorted, tapa::mmap<int> counts, uint64_t rounds) {
  tapa::streams<int, PORTS, ROOM> in("in"), between("between"), out("out");
  tapa::task()
    .invoke(Deal, packets, rounds, in[0], in[1], in[2], in[3])
    .invoke<tapa::detach>(Switch, 1, in[0], in[1], between[0], between[1])
    .invoke<tapa::detach>(Switch, 1, in[2], in[3], between[2], between[3])
    .invoke<tapa::detach>(Switch, 0, between[0], between[2], out[0], out[1])
    .invoke<tapa::detach>(Switch, 0, between[1], between[3], out[2], out[3])
    .invoke(Collect, out[0], out[1], out[2], out[3], rounds, sorted, counts);
}
