// T {"scalars": {"n": 3}, "memories": {"a": [7, -2, 300], "b": [0, 0, 0, 0]}, "waits": {"a": [0, 0, 1, 0], "b": [1, 0]}}
// Each kind of state of a task's machine but the one behind a bad token: assignments of registers and cells, tests, all operations on streams and memories, an array
// that is cleared again in the second turn, and the end; reads and writes past the end of a memory and of an array.
#include <tapa.h>

void Send(tapa::mmap<const int> a, int n, tapa::ostream<int>& q) {
  for (bool again = true; n > 1; again = !again) {
    for (int i = 0; i <= n; ++i) q << a[i];
    q.close();
    n -= 1 + !again;
  }
  q << n;
}

void Gather(tapa::istream<int>& q, tapa::ostream<int>& r, tapa::mmap<int> b) {
  for (int turn = 0; turn < 2; ++turn) {
    int sums[3];
    int at = turn;
    TAPA_WHILE_NOT_EOT(q) {
      int first = q.peek(nullptr);
      sums[at % 3] = sums[at % 3] + first + q.read();
      at += 1;
    }
    q.open();
    for (int i = 4; i >= turn; --i) b[i] = sums[i];
    sums[at] = at;
    r << b[1] << sums[2] << sums[at];
  }
  r << q.read();
  r.close();
}

void Take(tapa::istream<int>& r) {
  while (!r.eot(nullptr)) r.read();
  r.open();
}

void T(tapa::mmap<const int> a, tapa::mmap<int> b, int n) {
  tapa::stream<int, 1> q;
  tapa::stream<int> r;
  tapa::task().invoke(Send, a, n, q).invoke(Gather, q, r, b).invoke(Take, r);
}
