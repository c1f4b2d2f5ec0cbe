// A Jacobi iteration on a stream of rows, as a stencil compiler writes it: reuse buffers between modules that forward, one module that computes.
#include <tapa.h>

constexpr int kTileWidth = 8;
constexpr int kLanes = 2;

using vec = tapa::vec_t<float, kLanes>;

void Mmap2Stream(tapa::mmap<const float> mmap, uint64_t n, tapa::ostream<vec>& stream) {
  [[tapa::pipeline(2)]] for (uint64_t i = 0; i < n; ++i) {
    vec tmp;
    tmp.set(0, mmap[i * 2]);
    tmp.set(1, mmap[i * 2 + 1]);
    stream.write(tmp);
  }
  stream.close();
}

void Stream2Mmap(tapa::istream<vec>& stream, tapa::mmap<float> mmap) {
  [[tapa::pipeline(2)]] for (uint64_t i = 0;;) {
    bool eot;
    if (stream.try_eot(eot)) {
      if (eot) break;
      auto packed = stream.read(nullptr);
      mmap[i * 2] = packed[0];
      mmap[i * 2 + 1] = packed[1];
      ++i;
    }
  }
}

void Split(tapa::istream<vec>& in, tapa::ostream<float>& even, tapa::ostream<float>& odd) {
module_0_epoch:
  TAPA_WHILE_NOT_EOT(in) {
    auto dram_buf = in.read(nullptr);
    even.write(dram_buf[0]);
    odd.write(dram_buf[1]);
  }
  even.close();
  odd.close();
}

// Hands each value on at once, and once more after `delay` values.
template <int delay>
void Forward(tapa::istream<float>& from, tapa::ostream<float>& now, tapa::ostream<float>& late) {
  float line[delay] = {};
  int at = 0;
  TAPA_WHILE_NOT_EOT(from) {
    const float value = from.read(nullptr);
    now.write(value);
    late.write(line[at]);
    line[at] = value;
    at = at == delay - 1 ? 0 : at + 1;
  }
  now.close();
  late.close();
}

inline float Mean(float a, float b, float c, float d) {
  const float half_sum = (a + b) * 0.25f;
  return half_sum + (c + d) * 0.25f;
}

void Compute(tapa::istream<float>& even_now, tapa::istream<float>& even_late, tapa::istream<float>& odd_now, tapa::istream<float>& odd_late,
             tapa::ostream<float>& even_out, tapa::ostream<float>& odd_out) {
  float left = 0.f;
  while (true) {
    const bool is_end = even_now.eot(nullptr);
    if (is_end) break;
    float e = even_now.read(), el = even_late.read(), o = odd_now.read(), ol = odd_late.read();
    even_out.write(Mean(left, e, el, o));
    odd_out.write(Mean(e, o, ol, el));
    left = o;
  }
  even_out.close();
  odd_out.close();
}

void Join(tapa::istream<float>& even, tapa::istream<float>& odd, tapa::ostream<vec>& out) {
  TAPA_WHILE_NEITHER_EOT(even, odd) {
    vec packed;
    packed[0] = even.read(nullptr);
    packed[1] = odd.read(nullptr);
    out.write(packed);
  }
  out.close();
}

void Jacobi(tapa::mmap<const float> from, tapa::mmap<float> to, uint64_t n) {
  tapa::stream<vec, 4> in("in"), out("out");
  tapa::stream<float, 4> even("even"), odd("odd");
  tapa::stream<float, kTileWidth> even_now("even_now"), even_late("even_late"), odd_now("odd_now"), odd_late("odd_late");
  tapa::stream<float, 4> even_out("even_out"), odd_out("odd_out");
  tapa::task()
      .invoke(Mmap2Stream, "Mmap2Stream", from, n, in)
      .invoke(Split, in, even, odd)
      .invoke(Forward<kTileWidth / kLanes>, even, even_now, even_late)
      .invoke(Forward<kTileWidth / kLanes>, odd, odd_now, odd_late)
      .invoke(Compute, even_now, even_late, odd_now, odd_late, even_out, odd_out)
      .invoke(Join, even_out, odd_out, out)
      .invoke(Stream2Mmap, out, to);
}
