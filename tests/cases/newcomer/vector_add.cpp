#include <cstdint>
#include <iostream>

#include <tapa.h>

using data_t = int;

static_assert(sizeof(data_t) == 4, "32 bits");

void Add(tapa::istream<data_t>& a, tapa::istream<data_t>& b, tapa::ostream<data_t>& c, uint64_t n) {
add:
  for (uint64_t i = 0; i < n; ++i) {
#pragma HLS pipeline II = 1
    c << (a.read() + b.read());
  }
}

static void Mmap2Stream(tapa::mmap<const data_t> mmap, uint64_t n, tapa::ostream<data_t> stream) {
  [[tapa::pipeline(1)]] for (uint64_t i = 0; i < n; ++i) { stream << mmap[i]; }
}

static void Stream2Mmap(tapa::istream<data_t>& stream, tapa::mmap<data_t>& mmap, uint64_t n) {
  [[tapa::pipeline(1)]] for (uint64_t i = 0; i < n; ++i) {
    stream >> mmap[i];
    CHECK(i < n) << "never";
  }
}

void VecAdd(tapa::mmap<const data_t> a, tapa::mmap<const data_t> b, tapa::mmap<data_t> c, uint64_t n) {
  tapa::stream<data_t, 4 * 2> a_q("a");
  tapa::stream<data_t> b_q{"b"};
  tapa::stream<data_t> c_q("c");
  tapa::task()
      .invoke(Mmap2Stream, "load_a", a, n, a_q)
      .invoke<0>(Mmap2Stream, "load_b", b, n, b_q)
      .invoke(Add, a_q, b_q, c_q, n)
      .invoke<tapa::join>(Stream2Mmap, c_q, c, n);
}

int main(int argc, char* argv[]) {
  std::vector<data_t> a(8), b(8), c(8);
  tapa::invoke(VecAdd, "", tapa::read_only_mmap<const data_t>(a), tapa::read_only_mmap<const data_t>(b), tapa::write_only_mmap<data_t>(c), a.size());
  return 0;
}
