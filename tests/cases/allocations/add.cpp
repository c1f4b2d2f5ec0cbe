#include <tapa.h>
void Add(tapa::istream<int>& a, tapa::istream<int>& b, tapa::ostream<int>& c, uint64_t n) { for (uint64_t i = 0; i < n; ++i) { c << (a.read() + b.read()); } }
void Mmap2Stream(tapa::mmap<const int> mmap, uint64_t n, tapa::ostream<int>& stream) { for (uint64_t i = 0; i < n; ++i) { stream << mmap[i]; } }
void Stream2Mmap(tapa::istream<int>& stream, tapa::mmap<int> mmap, uint64_t n) { for (uint64_t i = 0; i < n; ++i) { stream >> mmap[i]; } }
void VecAdd(tapa::mmap<const int> a, tapa::mmap<const int> b, tapa::mmap<int> c, uint64_t n) {
  tapa::stream<int> a_q("a"); tapa::stream<int> b_q("b"); tapa::stream<int> c_q("c");
  tapa::task().invoke(Mmap2Stream, a, n, a_q).invoke(Mmap2Stream, b, n, b_q).invoke(Add, a_q, b_q, c_q, n).invoke(Stream2Mmap, c_q, c, n); }
