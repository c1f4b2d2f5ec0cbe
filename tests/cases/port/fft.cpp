// A pipeline of radix-2 butterflies on complex numbers of fixed point; twiddles as a table, operators of a struct, stages by a template.
#include <cstdint>

#include <tapa.h>

constexpr int kLog = 3;
constexpr int kPoints = 1 << kLog;
constexpr int kShift = 14;

struct Complex {
  int32_t re, im;
  Complex() = default;
  Complex(int32_t re, int32_t im) : re(re), im(im) {}
  Complex operator+(const Complex& o) const { return Complex(re + o.re, im + o.im); }
  Complex operator-(const Complex& o) const { return Complex(re - o.re, im - o.im); }
  Complex operator*(const Complex& o) const {
    const int64_t r = int64_t(re) * o.re - int64_t(im) * o.im;
    const int64_t i = int64_t(re) * o.im + int64_t(im) * o.re;
    return Complex(int32_t(r >> kShift), int32_t(i >> kShift));
  }
};

// cos and -sin of 2 pi k / 8, by 2^14
static const int16_t kCos[kPoints / 2] = {16384, 11585, 0, -11585};
static const int16_t kSin[kPoints / 2] = {0, -11585, -16384, -11585};

constexpr unsigned Reversed(unsigned x, int bits) {
  unsigned out = 0;
  for (int i = 0; i < bits; ++i) {
    out = (out << 1) | (x & 1);
    x >>= 1;
  }
  return out;
}

void Load(tapa::mmap<const Complex> in, int blocks, tapa::ostream<Complex>& out) {
  Complex buffer[kPoints];
  for (int b = 0; b < blocks; ++b) {
    for (unsigned i = 0; i < kPoints; ++i) buffer[Reversed(i, kLog)] = in[b * kPoints + i];
    for (int i = 0; i < kPoints; ++i) out.write(buffer[i]);
  }
  out.close();
}

template <int stage>
void Butterfly(tapa::istream<Complex>& in, tapa::ostream<Complex>& out) {
  constexpr int kHalf = 1 << stage;
  constexpr int kStride = kPoints >> (stage + 1);
  Complex data[kPoints];
  while (!in.eot(nullptr)) {
    for (int i = 0; i < kPoints; ++i) data[i] = in.read();
    for (int base = 0; base < kPoints; base += 2 * kHalf) {
      for (int k = 0; k < kHalf; ++k) {
        const Complex w(kCos[k * kStride], kSin[k * kStride]);
        const Complex t = w * data[base + k + kHalf];
        const Complex u = data[base + k];
        data[base + k] = u + t;
        data[base + k + kHalf] = u - t;
      }
    }
    for (int i = 0; i < kPoints; ++i) out.write(data[i]);
  }
  in.open();
  out.close();
}

void Store(tapa::istream<Complex>& in, tapa::mmap<Complex> out) {
  uint32_t i = 0;
  TAPA_WHILE_NOT_EOT(in) out[i++] = in.read(nullptr);
  in.open();
}

void Fft(tapa::mmap<const Complex> in, tapa::mmap<Complex> out, int blocks) {
  tapa::stream<Complex, 4> a("a"), b("b"), c("c"), d("d");
  tapa::task().invoke(Load, in, blocks, a).invoke(Butterfly<0>, a, b).invoke(Butterfly<1>, b, c).invoke(Butterfly<2>, c, d).invoke(Store, d, out);
}
