// tapa run examples/run_length.cpp RunLength examples/run_length.json
// A run-length coder and decoder. Each run of equal cells is one transaction on `runs`: the value, how often it stands,
// and the end of the transaction; a transaction without tokens ends the text. Look at TAPA_WHILE_NOT_EOT and `open` in the
// decoder, and at the tokens `eot` in the report's line of the stream.
#include <tapa.h>

void Encode(tapa::mmap<const uint8_t> text, uint64_t n, tapa::ostream<uint8_t>& runs) {
  uint64_t i = 0;
  while (i < n) {
    uint8_t value = text[i];
    uint8_t count = 1;
    ++i;
    while (true) {
      if (i >= n) break;
      uint8_t next = text[i];
      if (next != value) break;
      ++count;
      ++i;
    }
    runs << value << count;
    runs.close();
  }
  runs.close();
}

void Decode(tapa::istream<uint8_t>& runs, tapa::mmap<uint8_t> copy) {
  uint64_t at = 0;
  bool more = true;
  while (more) {
    more = false;
    TAPA_WHILE_NOT_EOT(runs) {
      uint8_t value = runs.read();
      uint8_t count = runs.read();
      for (uint8_t k = 0; k < count; ++k) { copy[at] = value; ++at; }
      more = true;
    }
    runs.open();
  }
}

void RunLength(tapa::mmap<const uint8_t> text, tapa::mmap<uint8_t> copy, uint64_t n) {
  tapa::stream<uint8_t, 3> runs("runs");
  tapa::task().invoke(Encode, text, n, runs).invoke(Decode, runs, copy);
}
