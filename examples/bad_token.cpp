// tapa run examples/bad_token.cpp BadToken
// A reader that doesn't ask whether a transaction is over: it wants three numbers, and the producer closes after two. The run stops
// there, and says which task met the bad token and on which stream.
#include <tapa.h>

void Producer(tapa::ostream<int>& numbers) {
  numbers << 1 << 2;
  numbers.close();
}

void Consumer(tapa::istream<int>& numbers) {
  for (int i = 0; i < 3; ++i) { numbers.read(); }
}

void BadToken() {
  tapa::stream<int> numbers("numbers");
  tapa::task().invoke(Producer, numbers).invoke(Consumer, numbers);
}
