// tapa run examples/too_shallow.cpp TooShallow
// A network that stops at its declared depths: the producer wants to write two numbers on `data` before it says on
// `ready` that they are there, and the consumer waits for that word first. With depth 2 for `data` it would end; with
// depth 1 both wait for ever, and `tapa run` says who waits for what.
#include <tapa.h>

void Producer(tapa::ostream<uint64_t>& data, tapa::ostream<uint64_t>& ready) {
  data << 1;
  data << 2;
  ready << 3;
}

void Consumer(tapa::istream<uint64_t>& data, tapa::istream<uint64_t>& ready) {
  ready.read();
  data.read();
  data.read();
}

void TooShallow() {
  tapa::stream<uint64_t, 1> data;
  tapa::stream<uint64_t, 1> ready;
  tapa::task().invoke(Producer, data, ready).invoke(Consumer, data, ready);
}
