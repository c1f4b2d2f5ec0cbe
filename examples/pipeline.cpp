// tapa run examples/pipeline.cpp Pipeline
// A pipeline of three tasks: one makes numbers, one adds, one takes them. Each stage runs as soon as a token is there,
// so all three work at once; the streams between them hold two tokens each, and what they carry doesn't depend on who
// runs when.
#include <tapa.h>

void Source(tapa::ostream<uint64_t>& numbers) {
  for (uint64_t i = 0; i < 8; ++i) { numbers << i + 10; }
}

void AddOne(tapa::istream<uint64_t>& numbers, tapa::ostream<uint64_t>& sums) {
  for (uint64_t i = 0; i < 8; ++i) { sums << numbers.read() + 1; }
}

void Sink(tapa::istream<uint64_t>& sums) {
  for (uint64_t i = 0; i < 8; ++i) { sums.read(); }
}

void Pipeline() {
  tapa::stream<uint64_t> numbers("numbers");
  tapa::stream<uint64_t> sums("sums");
  tapa::task().invoke(Source, numbers).invoke(AddOne, numbers, sums).invoke(Sink, sums);
}
