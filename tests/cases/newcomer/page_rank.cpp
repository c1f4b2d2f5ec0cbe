#include <tapa.h>

using Vid = int32_t;
typedef int Rank;

const int kVertices = 4;

struct Update {
  Vid dst;
  Rank delta;
};

// Sends the rank of each edge's source to its target, and closes at the end of an iteration.
void Scatter(tapa::mmap<const Vid> src, tapa::mmap<const Vid> dst, tapa::mmap<const Rank> ranks, int edges, tapa::ostream<Update>& updates) {
scatter:
  for (int i = 0; i < edges; ++i) {
    Update update;
    update.dst = dst[i];
    update.delta = ranks[src[i]] >> 1;
    updates.write(update);
  }
  updates.close();
}

void Gather(tapa::istream<Update>& updates, tapa::mmap<Rank> out) {
  Rank sums[kVertices] = {};
  TAPA_WHILE_NOT_EOT(updates) {
#pragma HLS pipeline II = 1
    const auto update = updates.read();
    sums[update.dst] += update.delta;
  }
  updates.open();
  for (Vid v = 0; v < kVertices; ++v) {
    VLOG(5) << "vertex " << v << " gets " << sums[v];
    out[v] = sums[v] + 10;
  }
}

void PageRank(tapa::mmap<const Vid> src, tapa::mmap<const Vid> dst, tapa::mmap<const Rank> ranks, tapa::mmap<Rank> out, int edges) {
  tapa::stream<Update, 8> updates("updates");
  tapa::task().invoke(Scatter, src, dst, ranks, edges, updates).invoke(Gather, updates, out);
}
