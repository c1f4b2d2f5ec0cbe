// Copyright-free rewrite of the bandwidth benchmark: each bank is read, written or both, through async_mmap, one vector a cycle.
#include <cstdint>

#include <tapa.h>

using Elem = tapa::vec_t<int, 16>;

constexpr int kBankCount = 2;
constexpr uint64_t kRead = 1 << 0;
constexpr uint64_t kWrite = 1 << 1;

void Reader(tapa::async_mmap<Elem>& mem, uint64_t n, uint64_t flags, tapa::ostream<Elem>& out) {
  if (!(flags & kRead)) {
    out.close();
    return;
  }
  [[tapa::pipeline(1)]] for (uint64_t i_req = 0, i_resp = 0; i_resp < n;) {
    if (i_req < n && mem.read_addr.try_write(i_req)) {
      ++i_req;
    }
    if (!mem.read_data.empty()) {
      out.write(mem.read_data.read(nullptr));
      ++i_resp;
    }
  }
  out.close();
}

// Adds all lanes, and hands the vectors on.
void Fold(tapa::istream<Elem>& in, tapa::ostream<Elem>& out, tapa::ostream<int>& sum) {
  int acc = 0;
fold:
  TAPA_WHILE_NOT_EOT(in) {
#pragma HLS pipeline II = 1
    auto elem = in.read(nullptr);
    for (int i = 0; i < Elem::length; ++i) {
#pragma HLS unroll
      acc += elem[i];
    }
    out.write(elem);
  }
  in.open();
  out.close();
  sum.write(acc);
}

void Writer(tapa::istream<Elem>& in, tapa::async_mmap<Elem>& mem, uint64_t flags) {
  if (!(flags & kWrite)) {
    TAPA_WHILE_NOT_EOT(in) in.read(nullptr);
    in.open();
    return;
  }
  int64_t addr = 0;
  TAPA_WHILE_NOT_EOT(in) {
    mem.write_addr.write(addr++);
    mem.write_data.write(in.read(nullptr));
    mem.write_resp.read();
  }
  in.open();
}

void Total(tapa::istreams<int, kBankCount>& sums, tapa::mmap<int> total) {
  int acc = 0;
  for (int i = 0; i < kBankCount; ++i) {
#pragma HLS unroll
    const int sum = sums[i].read();
    total[i] = sum;
    acc += sum;
  }
  total[kBankCount] = acc;
}

void Bandwidth(tapa::mmaps<Elem, kBankCount> from, tapa::mmaps<Elem, kBankCount> to, tapa::mmap<int> total, uint64_t n, uint64_t flags) {
  tapa::streams<Elem, kBankCount, 8> in("in");
  tapa::streams<Elem, kBankCount, 8> out("out");
  tapa::streams<int, kBankCount> sums("sums");

  tapa::task()
      .invoke<tapa::join, kBankCount>(Reader, from, n, flags, in)
      .invoke<tapa::join, kBankCount>(Fold, in, out, sums)
      .invoke<tapa::join, kBankCount>(Writer, out, to, flags)
      .invoke(Total, sums, total);
}
