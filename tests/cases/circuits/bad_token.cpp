// T {}
// The state behind a bad token: the task that reads the end of a transaction stops for good, and what it has written before is carried.
#include <tapa.h>

void Send(tapa::ostream<uint8_t>& q) {
  q << 200;
  q.close();
  q << 7;
}

void Add(tapa::istream<uint8_t>& q, tapa::ostream<int16_t>& r) {
  while (true) r << q.read() + 100;
}

void Take(tapa::istream<int16_t>& r) {
  for (int i = 0; i < 2; ++i) r.read();
}

void T() {
  tapa::stream<uint8_t> q;
  tapa::stream<int16_t> r;
  tapa::task().invoke(Send, q).invoke(Add, q, r).invoke(Take, r);
}
