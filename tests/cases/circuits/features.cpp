// tapa run tests/cases/circuits/features.cpp Top tests/cases/circuits/features.json
// What the examples have not: constants and converted scalars as arguments, arrays of one cell and of a power of two with nested reads, a task with four memories of 64, 16, 1
// and 32 bits, reads and stores past their ends, more than sixteen instances on three levels, deep streams, a stream that leads back to its task, and a task of one state.
#include <tapa.h>

void Count(uint8_t from, int64_t many, tapa::ostream<uint8_t>& q) {
  for (int64_t i = 0; i < many; ++i) {
    q << from;
    from += 29;
  }
}

void Mix(tapa::istream<uint8_t>& q, tapa::ostream<int16_t>& r, int many) {
  int16_t last[1];
  uint8_t order[4];
  int16_t seen[8];
  for (int i = 0; i < 4; ++i) order[i] = 3 - i;
  for (int i = 0; i < many; ++i) {
    seen[i & 7] = q.read() - 128;
    last[0] = last[0] * 3 + seen[order[seen[i & 7] & 3] & 7];
    r << last[0];
  }
}

void Keep(tapa::istream<int16_t>& r, tapa::mmap<uint64_t> wide, tapa::mmap<int16_t> half, tapa::mmap<bool> signs, tapa::mmap<const int> table, int64_t many) {
  for (int64_t i = 0; i < many; ++i) {
    int16_t x = r.read();
    half[i] = x;
    wide[i] += ((uint64_t) half[i] << 40) + table[x & 7];
    signs[many - i] = x < 0;
  }
}

void Loop(tapa::istream<bool>& in, tapa::ostream<bool>& out, tapa::ostream<int>& thirds) {
  for (int i = 0; i < 20; ++i) out << (i % 3 == 0);
  out.close();
  int sum = 0;
  TAPA_WHILE_NOT_EOT(in) sum += in.read();
  in.open();
  thirds << sum;
}

void Nothing() { }

void Step(int add, tapa::istream<int>& in, tapa::ostream<int>& out) { out << in.read() + add; }

void Pair(tapa::istream<int>& in, tapa::ostream<int>& out) {
  tapa::stream<int> x;
  tapa::task().invoke(Step, 1, in, x).invoke(Step, -1000, x, out);
}

void Row(tapa::istream<int>& in, tapa::ostream<int>& out) {
  tapa::stream<int> x, y, z;
  tapa::task().invoke(Pair, in, x).invoke(Pair, x, y).invoke(Pair, y, z).invoke(Pair, z, out);
}

void Sink(tapa::istream<int>& in) { in.read(); }

void Middle(uint8_t from, int many, tapa::ostream<int16_t>& r) {
  tapa::stream<uint8_t, 40> q("q");
  tapa::task().invoke(Count, from, many, q).invoke(Mix, q, r, many);
}

void Top(uint64_t from, int many, tapa::mmap<uint64_t> wide, tapa::mmap<int16_t> half, tapa::mmap<bool> signs, tapa::mmap<const int> table) {
  tapa::stream<int16_t, 4096> r("r");
  tapa::stream<bool, 24> back("back");
  tapa::stream<int> thirds("thirds"), x, y;
  tapa::task()
      .invoke(Middle, from, many, r)
      .invoke(Keep, r, wide, half, signs, table, 9)
      .invoke(Loop, back, back, thirds)
      .invoke<tapa::join>(Nothing)
      .invoke(Row, thirds, x)
      .invoke(Row, x, y)
      .invoke(Sink, y);
}
