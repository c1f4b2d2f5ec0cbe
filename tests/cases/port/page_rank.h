#ifndef PAGE_RANK_H_
#define PAGE_RANK_H_

#include <cstdint>

#include <tapa.h>

using Vid = uint32_t;
using Eid = uint32_t;

constexpr int kNumPes = 2;
constexpr int kMaxPartitionSize = 16;

struct VertexAttr {
  uint32_t out_degree_inverse;  // 16 bits behind the point
  uint32_t ranking;
};

struct Edge {
  Vid src;
  Vid dst;
};

struct Update {
  Vid dst;
  uint32_t delta;
};

struct TaskReq {
  enum Phase { SCATTER = 0, GATHER = 1 };
  Phase phase;
  uint32_t pid;
  Vid interval;
  Eid num_edges;
  bool is_last;
};

struct TaskResp {
  TaskReq::Phase phase;
  uint32_t pid;
  uint64_t count;
};

#endif  // PAGE_RANK_H_
