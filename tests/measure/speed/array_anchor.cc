// The table as a plain loop of C++, with the turns that its argument names.
#include <cstdint>
#include <cstdlib>

int main(int count, char** words) {
  const uint64_t n = count > 1 ? std::strtoull(words[1], nullptr, 10) : 0;
  int a[64] = {};
  unsigned s = 1;
  for (uint64_t i = 0; i < n; ++i) {
    s = s + a[i & 63];
    a[(i * 7) & 63] = (s ^ 5) + 3;
  }
  return (s) == 12345;
}
