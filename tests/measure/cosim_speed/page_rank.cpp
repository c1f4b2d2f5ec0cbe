// PageRank {"scalars": {"rounds": 8}, "cells": {"sources": 256, "targets": 256, "ranks": 64}}
// The ranks of 64 pages after some rounds along 256 links, in 32 bits of which 16 are a fraction: the links from memories, a task with the ranks and the counts of links
// in arrays, and one with the new ranks, which divides by nothing but powers of two.
#include <tapa.h>

const int PAGES = 64;
const int LINKS = 256;

void Links(tapa::mmap<const unsigned> sources, tapa::mmap<const unsigned> targets, int rounds, tapa::ostream<uint8_t>& from, tapa::ostream<uint8_t>& to) {
  for (int r = 0; r < rounds + 1; ++r) {
    for (int k = 0; k < LINKS; ++k) {
      unsigned a = sources[k];
      unsigned b = targets[k];
      from << (uint8_t) (a & (PAGES - 1));
      to << (uint8_t) (b % PAGES);
    }
  }
}

void Give(tapa::istream<uint8_t>& from, tapa::istream<unsigned>& back, int rounds, tapa::ostream<unsigned>& shares) {
  unsigned rank[PAGES];
  uint16_t links[PAGES];
  for (int k = 0; k < LINKS; ++k) { uint8_t a = from.read(); links[a] = links[a] + 1; }
  for (int p = 0; p < PAGES; ++p) { rank[p] = 1 << 16; }
  for (int r = 0; r < rounds; ++r) {
    for (int k = 0; k < LINKS; ++k) {
      uint8_t a = from.read();
      uint16_t n = links[a];
      int shift = 0;
      if (n > 1) { shift = n > 4 ? 3 : n > 2 ? 2 : 1; }
      shares << (rank[a] >> shift);
    }
    for (int p = 0; p < PAGES; ++p) { rank[p] = back.read(); }
  }
}

void Take(tapa::istream<uint8_t>& to, tapa::istream<unsigned>& shares, int rounds, tapa::ostream<unsigned>& back, tapa::mmap<unsigned> ranks) {
  unsigned sum[PAGES];
  for (int k = 0; k < LINKS; ++k) { to.read(); }
  for (int r = 0; r < rounds; ++r) {
    for (int k = 0; k < LINKS; ++k) {
      uint8_t b = to.read();
      unsigned share = shares.read();
      sum[b] = sum[b] + ((share * 217) >> 8);
    }
    for (int p = 0; p < PAGES; ++p) {
      unsigned next = sum[p] + ((39 << 16) >> 8);
      back << next;
      ranks[p] = next;
      sum[p] = 0;
    }
  }
}

void PageRank(tapa::mmap<const unsigned> sources, tapa::mmap<const unsigned> targets, tapa::mmap<unsigned> ranks, int rounds) {
  tapa::stream<uint8_t, 8> from("from");
  tapa::stream<uint8_t, 8> to("to");
  tapa::stream<unsigned, 4> shares("shares");
  tapa::stream<unsigned, 64> back("back");
  tapa::task().invoke(Links, sources, targets, rounds, from, to).invoke(Give, from, back, rounds, shares).invoke(Take, to, shares, rounds, back, ranks);
}
