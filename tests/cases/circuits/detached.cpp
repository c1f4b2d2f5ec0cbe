// T {"scalars": {"n": -3}, "memories": {"c": [9, 200]}}
// A detached task beside joined ones, with a memory of its own: it never ends, and the circuit is done without it.
#include <tapa.h>

void Serve(tapa::istream<int>& ask, tapa::ostream<int64_t>& answer, tapa::mmap<const uint8_t> c) {
  int64_t sum = 0;
  while (true) {
    sum -= ask.read() * c[1];
    answer << sum;
  }
}

void Ask(int n, tapa::ostream<int>& ask, tapa::istream<int64_t>& answer) {
  for (bool last = false; !last; last = n == 0) {
    ask << n;
    answer.read();
    n++;
  }
}

void T(tapa::mmap<const uint8_t> c, int n) {
  tapa::stream<int> ask;
  tapa::stream<int64_t> answer;
  tapa::task().invoke<tapa::detach>(Serve, ask, answer, c).invoke(Ask, n, ask, answer);
}
