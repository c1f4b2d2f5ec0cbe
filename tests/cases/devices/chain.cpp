#include <tapa.h>
void Source(tapa::istream<int>& back, tapa::ostream<int>& first) { first << 5; back.read(); }
void Relay(tapa::istream<int>& in, tapa::ostream<int>& out) { out << in.read() + 1; }
void Lone() { int x = 0; }
void Never() { int x = 0; }
void Pair(tapa::istream<int>& in, tapa::ostream<int>& out) {
  tapa::stream<int> middle;
  tapa::task().invoke(Relay, in, middle).invoke(Relay, middle, out);
}
void T() {
  tapa::stream<int> there; tapa::stream<int> back;
  tapa::task().invoke(Source, back, there).invoke(Pair, there, back).invoke(Lone);
}
