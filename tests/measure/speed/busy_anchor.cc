// The busy task as plain C++, with the turns that its argument names; each variable is kept in memory, as an interpreter keeps it.
#include <cstdint>
#include <cstdlib>

int main(int count, char** words) {
  volatile uint64_t n = count > 1 ? std::strtoull(words[1], nullptr, 10) : 0;
  volatile uint64_t s = 1;
  for (volatile uint64_t i = 0; i < n; i = i + 1) {
    s = s * 3 + i;
  }
  return s == 0;
}
