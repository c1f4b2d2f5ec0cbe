// tapa run examples/feedback.cpp Feedback
// A loop of tasks: an accumulator whose sum goes round through another task. Look at the first line of `Accumulate`: it puts a
// token into the loop, without which each task would wait for the other for ever.
#include <tapa.h>

void Accumulate(tapa::istream<int>& back, tapa::ostream<int>& sums) {
  sums << 0;
  for (int i = 1; i <= 5; ++i) { sums << back.read() + i; }
  back.read();
}

void Halve(tapa::istream<int>& sums, tapa::ostream<int>& back) {
  for (int i = 0; i < 6; ++i) { back << (sums.read() >> 1); }
}

void Feedback() {
  tapa::stream<int> sums("sums");
  tapa::stream<int> back("back");
  tapa::task().invoke(Accumulate, back, sums).invoke(Halve, sums, back);
}
