// The walk as a plain loop of C++, with the turns that its argument names.
#include <cstdint>
#include <cstdlib>

int main(int count, char** words) {
  const uint64_t n = count > 1 ? std::strtoull(words[1], nullptr, 10) : 0;
  int x = 27;
  int y = 0;
  for (uint64_t i = 0; i < n; ++i) {
    if ((x & 1) == 0) {
      x = x / 2;
    } else if (x > 100000) {
      x = x - 99991;
    } else {
      if (x < 3) {
        x = y + 27;
      } else {
        x = x * 3 + 1;
      }
    }
    if (x > y && x != 1) {
      y = y + 1;
    }
  }
  return (x + y) == 12345;
}
