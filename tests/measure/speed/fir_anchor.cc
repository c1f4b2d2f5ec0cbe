// The filter as a plain loop of C++, with the turns that its argument names.
#include <cstdint>
#include <cstdlib>

int main(int count, char** words) {
  const uint64_t n = count > 1 ? std::strtoull(words[1], nullptr, 10) : 0;
  unsigned d0 = 0; unsigned d1 = 0; unsigned d2 = 0; unsigned d3 = 0;
  unsigned s = 0;
  for (uint64_t i = 0; i < n; ++i) {
    d3 = d2;
    d2 = d1;
    d1 = d0;
    d0 = static_cast<unsigned>(static_cast<int>(s) >> 3) + 17;
    s = d0 * 3 + d1 * 5 + d2 * 7 + d3 * 11;
  }
  return (s) == 12345;
}
