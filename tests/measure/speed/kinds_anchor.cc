// The sums in each kind as a plain loop of C++, with the turns that its argument names.
#include <cstdint>
#include <cstdlib>

int main(int count, char** words) {
  const uint64_t n = count > 1 ? std::strtoull(words[1], nullptr, 10) : 0;
  uint8_t a = 1; int8_t b = 2; uint16_t c = 3; int16_t d = 4;
  uint32_t e = 5; int32_t f = 6; uint64_t g = 7; int64_t h = 8;
  for (uint64_t i = 0; i < n; ++i) {
    a = a + 5;
    b = b ^ a;
    c = c * 3 + a;
    d = d - b;
    e = e * 7 + c;
    f = f + d;
    g = g * 5 + e;
    h = h - f;
    if (h < f) {
      h = h + 1000;
    }
  }
  return (a + b + c + d + e + f + g + h) == 12345;
}
