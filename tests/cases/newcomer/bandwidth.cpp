#include <tapa.h>

using namespace tapa;

enum Mode { READ = 1, WRITE = 2 };

const int kBanks = 2;

// Reads and writes one bank as fast as its port allows.
void Copy(async_mmap<uint64_t>& mem, uint64_t n, uint64_t flags, ostream<uint64_t>& sum) {
  uint64_t total = 0;
  for (uint64_t i_req = 0, i_resp = 0; i_resp < n;) {
    if (i_req < n && mem.read_addr.try_write(i_req)) ++i_req;
    uint64_t elem;
    if (mem.read_data.try_read(elem)) {
      total += elem;
      ++i_resp;
    }
  }
  sum << total;
}

void Gather(istreams<uint64_t, kBanks>& sums, mmap<uint64_t> out) {
  out[0] = sums[0].read();
  out[1] = sums[1].read();
}

void Bandwidth(mmap<uint64_t> bank_0, mmap<uint64_t> bank_1, mmap<uint64_t> out, uint64_t n, uint64_t flags) {
  streams<uint64_t, kBanks> sums("sums");
  task()
      .invoke<join>(Copy, bank_0, n, flags, sums[0])
      .invoke<join>(Copy, bank_1, n, flags, sums[1])
      .invoke<join>(Gather, sums, out);
}
