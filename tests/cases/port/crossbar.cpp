// The same switch in rounds: each input brings a packet or none in each round, so what goes out does not depend on timing.
#include <cstdint>

#include <tapa.h>

constexpr int kPorts = 4;
constexpr int kLog = 2;

struct Packet {
  uint16_t dest;
  bool valid;
  int32_t payload;
};

template <int bit>
bool Goes(const Packet& p) {
  return (p.dest >> bit & 1) != 0;
}

template <int bit>
void Switch2x2(tapa::istream<Packet>& in0, tapa::istream<Packet>& in1, tapa::ostream<Packet>& out0, tapa::ostream<Packet>& out1) {
  const Packet none = {0, false, 0};
  TAPA_WHILE_NEITHER_EOT(in0, in1) {
#pragma HLS pipeline II = 2
    const Packet a = in0.read(nullptr);
    const Packet b = in1.read(nullptr);
    // two slots a round and output, so none is lost
    Packet low[2], high[2];
    low[0] = a.valid && !Goes<bit>(a) ? a : none;
    low[1] = b.valid && !Goes<bit>(b) ? b : none;
    high[0] = a.valid && Goes<bit>(a) ? a : none;
    high[1] = b.valid && Goes<bit>(b) ? b : none;
    for (int slot = 0; slot < 2; ++slot) {
      out0.write(low[slot]);
      out1.write(high[slot]);
    }
  }
  in0.open();
  in1.open();
  out0.close();
  out1.close();
}

void Produce(tapa::mmap<const int32_t> from, int rounds, tapa::ostreams<Packet, kPorts>& out) {
  for (int i = 0; i < rounds; ++i) {
    for (int port = 0; port < kPorts; ++port) {
      const int32_t word = from[i * kPorts + port];
      Packet p;
      p.dest = word & (kPorts - 1);
      p.valid = word >= 0;
      p.payload = word >> kLog;
      out[port].write(p);
    }
  }
  for (int port = 0; port < kPorts; ++port) out[port].close();
}

void Consume(int id, tapa::istream<Packet>& in, tapa::ostream<int64_t>& out) {
  int64_t sum = 0;
  int count = 0;
  TAPA_WHILE_NOT_EOT(in) {
    const auto p = in.read(nullptr);
    if (!p.valid) continue;
    count++;
    sum += p.payload * (count + id);
  }
  in.open();
  out << sum << int64_t(count);
}

void Report(tapa::istreams<int64_t, kPorts>& in, tapa::mmap<int64_t> to) {
  for (int port = 0; port < kPorts; ++port) {
    in[port] >> to[2 * port] >> to[2 * port + 1];
  }
}

void Crossbar(tapa::mmap<const int32_t> from, tapa::mmap<int64_t> to, int rounds) {
  tapa::streams<Packet, kPorts, 8> a("a"), b("b"), c("c");
  tapa::streams<int64_t, kPorts, 2> sums("sums");
  tapa::task()
      .invoke(Produce, from, rounds, a)
      .invoke(Switch2x2<1>, a[0], a[2], b[0], b[2])
      .invoke(Switch2x2<1>, a[1], a[3], b[1], b[3])
      .invoke(Switch2x2<0>, b[0], b[1], c[0], c[1])
      .invoke(Switch2x2<0>, b[2], b[3], c[2], c[3])
      .invoke<tapa::join, kPorts>(Consume, tapa::seq(), c, sums)
      .invoke(Report, sums, to);
}
