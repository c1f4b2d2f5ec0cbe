// The nearest neighbours of a point: distances by lanes, a sorter of the least K in each lane, and a merge of the lanes.
#include <tapa.h>

#define NUM_PE 2
#define D 2
#define TOP 3
#define MAX_DISTANCE 0x7fffffff

typedef int data_t;

struct Candidate {
  data_t distance = MAX_DISTANCE;
  int id = -1;
};

inline bool operator<(const Candidate& a, const Candidate& b) { return a.distance != b.distance ? a.distance < b.distance : a.id < b.id; }

template <int dims>
data_t SquaredDistance(const data_t (&x)[dims], const data_t (&y)[dims]) {
  data_t acc = 0;
  for (int d = 0; d < dims; ++d) {
#pragma HLS unroll
    const data_t delta = x[d] - y[d];
    acc += delta * delta;
  }
  return acc;
}

template <int pe>
void ComputeDistance(tapa::mmap<const data_t> points, int n, data_t x, data_t y, tapa::ostream<Candidate>& out) {
  const data_t query[D] = {x, y};
  for (int i = 0; i < n; ++i) {
#pragma HLS pipeline
    data_t point[D];
    for (int d = 0; d < D; ++d) point[d] = points[i * D + d];
    Candidate c;
    c.distance = SquaredDistance<D>(point, query);
    c.id = i * NUM_PE + pe;
    out.write(c);
  }
  out.close();
}

void SortTop(tapa::istream<Candidate>& in, tapa::ostream<Candidate>& out) {
  Candidate best[TOP + 1];
  for (int k = 0; k <= TOP; ++k) best[k] = Candidate();
  TAPA_WHILE_NOT_EOT(in) {
    best[TOP] = in.read(nullptr);
    // one pass of bubbles towards the front
    for (int k = TOP; k > 0; --k) {
      if (best[k] < best[k - 1]) {
        Candidate tmp = best[k];
        best[k] = best[k - 1];
        best[k - 1] = tmp;
      }
    }
  }
  in.open();
  for (int k = 0; k < TOP; ++k) out.write(best[k]);
}

void Merge(tapa::istreams<Candidate, NUM_PE>& in, tapa::mmap<int> distances, tapa::mmap<int> ids) {
  Candidate left[TOP], right[TOP];
  for (int k = 0; k < TOP; ++k) {
    left[k] = in[0].read();
    right[k] = in[1].read();
  }
  int l = 0, r = 0;
  for (int k = 0; k < TOP; ++k) {
    const Candidate next = left[l] < right[r] ? left[l++] : right[r++];
    distances[k] = next.distance;
    ids[k] = next.id;
  }
}

void Knn(tapa::mmap<const data_t> points_0, tapa::mmap<const data_t> points_1, tapa::mmap<int> distances, tapa::mmap<int> ids, int n, data_t x, data_t y) {
  tapa::streams<Candidate, NUM_PE, 4> raw("raw"), sorted("sorted");
  tapa::task()
      .invoke(ComputeDistance<0>, points_0, n, x, y, raw[0])
      .invoke(ComputeDistance<1>, points_1, n, x, y, raw[1])
      .invoke<tapa::join, NUM_PE>(SortTop, raw, sorted)
      .invoke(Merge, sorted, distances, ids);
}
