// T {"scalars": {"a": -100, "b": 37, "c": 4000000000, "d": 123, "e": -9223372036854775808, "f": 3037000499, "g": 18446744073709551610, "h": 4294967297}}
// Each operator and conversion on signed operands of 8 and 64 bits and unsigned ones of 32 and 64: sums with the operands in either place, shifts by 7 and by 64, tests on the
// operands, on 0 and the first, and on 0 twice. The results are carried as 64 bits, so their kind shows too.
#include <tapa.h>

void SumsInt8(int8_t x, int8_t y, tapa::ostream<int64_t>& q) {
  for (int s = 7; s < 65; s += 57) {
    q << x + y << x - y << x * y << x / 7 << x % 7 << x / -3 << x % -3;
    q << (x & y) << (x | y) << (x ^ y) << (x << s) << (x >> s);
    int8_t z = x;
    x = y;
    y = z;
  }
}

void TestsInt8(int8_t x, int8_t y, tapa::ostream<int64_t>& q) {
  for (int turn = 0; turn < 3; ++turn) {
    q << (x < y) << (x <= y) << (x > y) << (x >= y) << (x == y) << (x != y) << (x && y) << (x || y);
    q << -x << +x << ~x << !x << (x < y ? x : y) << (bool)x << (uint16_t)x << (int8_t)(x * y);
    y = x;
    x = 0;
  }
}

void SumsUint32(unsigned x, unsigned y, tapa::ostream<int64_t>& q) {
  for (int s = 7; s < 65; s += 57) {
    q << x + y << x - y << x * y << x / 7 << x % 7 << x / 3 << x % 3;
    q << (x & y) << (x | y) << (x ^ y) << (x << s) << (x >> s);
    unsigned z = x;
    x = y;
    y = z;
  }
}

void TestsUint32(unsigned x, unsigned y, tapa::ostream<int64_t>& q) {
  for (int turn = 0; turn < 3; ++turn) {
    q << (x < y) << (x <= y) << (x > y) << (x >= y) << (x == y) << (x != y) << (x && y) << (x || y);
    q << -x << +x << ~x << !x << (x < y ? x : y) << (bool)x << (uint16_t)x << (int8_t)(x * y);
    y = x;
    x = 0;
  }
}

void SumsInt64(int64_t x, int64_t y, tapa::ostream<int64_t>& q) {
  for (int s = 7; s < 65; s += 57) {
    q << x + y << x - y << x * y << x / 7 << x % 7 << x / -3 << x % -3;
    q << (x & y) << (x | y) << (x ^ y) << (x << s) << (x >> s);
    int64_t z = x;
    x = y;
    y = z;
  }
}

void TestsInt64(int64_t x, int64_t y, tapa::ostream<int64_t>& q) {
  for (int turn = 0; turn < 3; ++turn) {
    q << (x < y) << (x <= y) << (x > y) << (x >= y) << (x == y) << (x != y) << (x && y) << (x || y);
    q << -x << +x << ~x << !x << (x < y ? x : y) << (bool)x << (uint16_t)x << (int8_t)(x * y);
    y = x;
    x = 0;
  }
}

void SumsUint64(uint64_t x, uint64_t y, tapa::ostream<int64_t>& q) {
  for (int s = 7; s < 65; s += 57) {
    q << x + y << x - y << x * y << x / 7 << x % 7 << x / 3 << x % 3;
    q << (x & y) << (x | y) << (x ^ y) << (x << s) << (x >> s);
    uint64_t z = x;
    x = y;
    y = z;
  }
}

void TestsUint64(uint64_t x, uint64_t y, tapa::ostream<int64_t>& q) {
  for (int turn = 0; turn < 3; ++turn) {
    q << (x < y) << (x <= y) << (x > y) << (x >= y) << (x == y) << (x != y) << (x && y) << (x || y);
    q << -x << +x << ~x << !x << (x < y ? x : y) << (bool)x << (uint16_t)x << (int8_t)(x * y);
    y = x;
    x = 0;
  }
}

void Take(tapa::istream<int64_t>& q) {
  while (true) q.read();
}

void T(int8_t a, int8_t b, unsigned c, unsigned d, int64_t e, int64_t f, uint64_t g, uint64_t h) {
  tapa::stream<int64_t, 16> sums_int8, tests_int8;
  tapa::stream<int64_t, 16> sums_uint32, tests_uint32;
  tapa::stream<int64_t, 16> sums_int64, tests_int64;
  tapa::stream<int64_t, 16> sums_uint64, tests_uint64;
  tapa::task()
    .invoke(SumsInt8, a, b, sums_int8).invoke(TestsInt8, a, b, tests_int8)
    .invoke(SumsUint32, c, d, sums_uint32).invoke(TestsUint32, c, d, tests_uint32)
    .invoke(SumsInt64, e, f, sums_int64).invoke(TestsInt64, e, f, tests_int64)
    .invoke(SumsUint64, g, h, sums_uint64).invoke(TestsUint64, g, h, tests_uint64)
    .invoke<tapa::detach>(Take, sums_int8).invoke<tapa::detach>(Take, tests_int8)
    .invoke<tapa::detach>(Take, sums_uint32).invoke<tapa::detach>(Take, tests_uint32)
    .invoke<tapa::detach>(Take, sums_int64).invoke<tapa::detach>(Take, tests_int64)
    .invoke<tapa::detach>(Take, sums_uint64).invoke<tapa::detach>(Take, tests_uint64);
}
