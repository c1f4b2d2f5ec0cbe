// The crossbar by hand: a packet is one word, with its destination, whether it is one, and its payload from bit 32 on; each switch writes its four slots one after another.
#include <tapa.h>

const int kPorts = 4;

void SwitchHigh(tapa::istream<uint64_t>& in0, tapa::istream<uint64_t>& in1, tapa::ostream<uint64_t>& out0, tapa::ostream<uint64_t>& out1) {
  while (!in0.eot(nullptr)) {
    if (in1.eot(nullptr)) { break; }
    uint64_t a = in0.read();
    uint64_t b = in1.read();
    out0.write((a >> 16 & 1) == 1 && (a >> 1 & 1) == 0 ? a : 0);
    out1.write((a >> 16 & 1) == 1 && (a >> 1 & 1) == 1 ? a : 0);
    out0.write((b >> 16 & 1) == 1 && (b >> 1 & 1) == 0 ? b : 0);
    out1.write((b >> 16 & 1) == 1 && (b >> 1 & 1) == 1 ? b : 0);
  }
  in0.open();
  in1.open();
  out0.close();
  out1.close();
}

void SwitchLow(tapa::istream<uint64_t>& in0, tapa::istream<uint64_t>& in1, tapa::ostream<uint64_t>& out0, tapa::ostream<uint64_t>& out1) {
  while (!in0.eot(nullptr)) {
    if (in1.eot(nullptr)) { break; }
    uint64_t a = in0.read();
    uint64_t b = in1.read();
    out0.write((a >> 16 & 1) == 1 && (a & 1) == 0 ? a : 0);
    out1.write((a >> 16 & 1) == 1 && (a & 1) == 1 ? a : 0);
    out0.write((b >> 16 & 1) == 1 && (b & 1) == 0 ? b : 0);
    out1.write((b >> 16 & 1) == 1 && (b & 1) == 1 ? b : 0);
  }
  in0.open();
  in1.open();
  out0.close();
  out1.close();
}

void Produce(tapa::mmap<const int> from, int rounds, tapa::ostream<uint64_t>& out0, tapa::ostream<uint64_t>& out1, tapa::ostream<uint64_t>& out2, tapa::ostream<uint64_t>& out3) {
  for (int i = 0; i < rounds; ++i) {
    int word = from[4 * i];
    out0.write((uint64_t) (word & 3) | (uint64_t) (word >= 0) << 16 | (uint64_t) (word >> 2) << 32);
    word = from[4 * i + 1];
    out1.write((uint64_t) (word & 3) | (uint64_t) (word >= 0) << 16 | (uint64_t) (word >> 2) << 32);
    word = from[4 * i + 2];
    out2.write((uint64_t) (word & 3) | (uint64_t) (word >= 0) << 16 | (uint64_t) (word >> 2) << 32);
    word = from[4 * i + 3];
    out3.write((uint64_t) (word & 3) | (uint64_t) (word >= 0) << 16 | (uint64_t) (word >> 2) << 32);
  }
  out0.close();
  out1.close();
  out2.close();
  out3.close();
}

void Consume(int id, tapa::istream<uint64_t>& in, tapa::ostream<int64_t>& out) {
  int64_t sum = 0;
  int count = 0;
  TAPA_WHILE_NOT_EOT(in) {
    uint64_t p = in.read();
    if ((p >> 16 & 1) == 1) {
      count++;
      sum += (int) (p >> 32) * (count + id);
    }
  }
  in.open();
  out << sum << int64_t(count);
}

void Report(tapa::istream<int64_t>& in0, tapa::istream<int64_t>& in1, tapa::istream<int64_t>& in2, tapa::istream<int64_t>& in3, tapa::mmap<int64_t> to) {
  in0 >> to[0] >> to[1];
  in1 >> to[2] >> to[3];
  in2 >> to[4] >> to[5];
  in3 >> to[6] >> to[7];
}

void Crossbar(tapa::mmap<const int> from, tapa::mmap<int64_t> to, int rounds) {
  tapa::streams<uint64_t, kPorts, 8> a("a"), b("b"), c("c");
  tapa::streams<int64_t, kPorts, 2> sums("sums");
  tapa::task()
      .invoke(Produce, from, rounds, a[0], a[1], a[2], a[3])
      .invoke(SwitchHigh, a[0], a[2], b[0], b[2])
      .invoke(SwitchHigh, a[1], a[3], b[1], b[3])
      .invoke(SwitchLow, b[0], b[1], c[0], c[1])
      .invoke(SwitchLow, b[2], b[3], c[2], c[3])
      .invoke(Consume, 0, c[0], sums[0])
      .invoke(Consume, 1, c[1], sums[1])
      .invoke(Consume, 2, c[2], sums[2])
      .invoke(Consume, 3, c[3], sums[3])
      .invoke(Report, sums[0], sums[1], sums[2], sums[3], to);
}
