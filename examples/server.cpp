// tapa run examples/server.cpp Server
// A task that is not waited for: `Serve` answers questions for as long as there are any, and never ends. It is invoked with
// `tapa::detach`, so the run is done when `Ask` has ended; the ticks that are told are those of `Ask` alone.
#include <tapa.h>

void Serve(tapa::istream<uint64_t>& questions, tapa::ostream<uint64_t>& answers) {
  while (true) {
    uint64_t x = questions.read();
    answers << x * x;
  }
}

void Ask(tapa::ostream<uint64_t>& questions, tapa::istream<uint64_t>& answers) {
  uint64_t next = 2;
  for (int i = 0; i < 5; ++i) {
    questions << next;
    next = answers.read() + 1;
  }
}

void Server() {
  tapa::stream<uint64_t> questions;
  tapa::stream<uint64_t> answers;
  tapa::task().invoke<tapa::detach>(Serve, questions, answers).invoke(Ask, questions, answers);
}
