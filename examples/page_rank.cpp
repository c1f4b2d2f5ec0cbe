// tapa run examples/page_rank.cpp PageRank examples/page_rank.json
// Page rank on a small graph, in fixed point: a rank of 65536 is 1. `Edges` names for each page those that link to it, and
// closes the transaction: how many there are is said by its end, and no count. `Ranks` answers with the share of each, and
// `Sum` adds up a transaction at a time. Look at the ring `Ranks` ▸ `Sum` ▸ `Ranks`: the new ranks come back one by one, so
// no stream has to hold a whole round; and at `weights`, 65536 by the number of links of a page, as there is no divider.
#include <tapa.h>

const int MOST = 64;             // pages that the arrays have room for
const uint32_t DAMPING = 55705;  // 0.85

void Edges(tapa::mmap<const uint32_t> begins, tapa::mmap<const uint32_t> sources, uint32_t pages, uint32_t rounds,
           tapa::ostream<uint32_t>& wanted) {
  for (uint32_t round = 0; round < rounds; ++round) {
    for (uint32_t page = 0; page < pages; ++page) {
      uint32_t end = begins[page + 1];
      for (uint32_t at = begins[page]; at < end; ++at) { wanted << sources[at]; }
      wanted.close();
    }
  }
}

void Ranks(tapa::mmap<uint32_t> ranks, tapa::mmap<const uint32_t> weights, uint32_t pages, uint32_t rounds,
           tapa::istream<uint32_t>& wanted, tapa::istream<uint32_t>& next, tapa::ostream<uint32_t>& shares) {
  uint32_t share[MOST];
  for (uint32_t round = 0; round < rounds; ++round) {
    for (uint32_t page = 0; page < pages; ++page) { share[page] = uint32_t((uint64_t) ranks[page] * weights[page] >> 16); }
    for (uint32_t page = 0; page < pages; ++page) {
      TAPA_WHILE_NOT_EOT(wanted) { shares << share[wanted.read()]; }
      wanted.open();
      shares.close();
      ranks[page] = next.read();
    }
  }
}

void Sum(uint32_t base, uint32_t pages, uint32_t rounds, tapa::istream<uint32_t>& shares, tapa::ostream<uint32_t>& next) {
  for (uint32_t round = 0; round < rounds; ++round) {
    for (uint32_t page = 0; page < pages; ++page) {
      uint32_t sum = 0;
      TAPA_WHILE_NOT_EOT(shares) { sum += shares.read(); }
      shares.open();
      next << base + uint32_t((uint64_t) sum * DAMPING >> 16);
    }
  }
}

void PageRank(tapa::mmap<const uint32_t> begins, tapa::mmap<const uint32_t> sources, tapa::mmap<const uint32_t> weights,
              tapa::mmap<uint32_t> ranks, uint32_t base, uint32_t pages, uint32_t rounds) {
  tapa::stream<uint32_t> wanted("wanted");
  tapa::stream<uint32_t> shares("shares");
  tapa::stream<uint32_t> next("next");
  tapa::task()
    .invoke(Edges, begins, sources, pages, rounds, wanted)
    .invoke(Ranks, ranks, weights, pages, rounds, wanted, next, shares)
    .invoke(Sum, base, pages, rounds, shares, next);
}
