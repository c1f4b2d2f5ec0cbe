// Ten tasks that pass tokens through rings of sixteen places, one task after another, with the tokens that the argument names.
#include <cstdint>
#include <cstdlib>

struct Ring {
  uint64_t items[16];
  unsigned head = 0, count = 0;
};

int main(int words_count, char** words) {
  const uint64_t tokens = words_count > 1 ? std::strtoull(words[1], nullptr, 10) : 0;
  static Ring rings[9];
  static uint64_t made[10];
  volatile uint64_t sum = 0;
  while (made[9] < tokens) {
    for (int task = 0; task < 10; ++task) {
      while (made[task] < tokens) {
        Ring* in = task > 0 ? &rings[task - 1] : nullptr;
        Ring* out = task < 9 ? &rings[task] : nullptr;
        if ((in && in->count == 0) || (out && out->count == 16)) {
          break;
        }
        uint64_t token = made[task]++;
        if (in) {
          token = in->items[in->head];
          in->head = (in->head + 1) % 16;
          --in->count;
        }
        if (out) {
          out->items[(out->head + out->count++) % 16] = token;
        } else {
          sum = sum + token;
        }
      }
    }
  }
  return sum == 1;
}
