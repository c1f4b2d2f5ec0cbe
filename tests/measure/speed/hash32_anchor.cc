// The hash in 32 bits as a plain loop of C++, with the turns that its argument names.
#include <cstdint>
#include <cstdlib>

int main(int count, char** words) {
  const uint64_t n = count > 1 ? std::strtoull(words[1], nullptr, 10) : 0;
  uint32_t h = 2166136261u;
  uint32_t k = n;
  for (uint32_t i = 0; i < k; ++i) {
    h = (h ^ i) * 16777619u;
    h = h ^ (h >> 13);
  }
  return (h) == 12345;
}
