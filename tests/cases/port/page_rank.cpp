// Page rank with a control unit that asks processing elements for phases, as the accelerator of a graph framework has it.
#include "page_rank.h"

void Control(uint32_t num_edges, uint32_t iterations, tapa::ostreams<TaskReq, kNumPes>& reqs, tapa::istreams<TaskResp, kNumPes>& resps, tapa::mmap<uint64_t> metadata) {
  uint64_t total = 0;
  for (uint32_t iter = 0; iter < iterations; ++iter) {
    for (int phase = 0; phase < 2; ++phase) {
      for (int pe = 0; pe < kNumPes; ++pe) {
        TaskReq req{phase == 0 ? TaskReq::SCATTER : TaskReq::GATHER, uint32_t(pe), kMaxPartitionSize, num_edges, iter + 1 == iterations};
        reqs[pe].write(req);
      }
      for (int pe = 0; pe < kNumPes; ++pe) {
        auto resp = resps[pe].read();
        total += resp.count;
      }
    }
    metadata[iter] = total;
  }
  for (int pe = 0; pe < kNumPes; ++pe) {
#pragma HLS unroll
    reqs[pe].close();
  }
}

void ProcElem(tapa::istream<TaskReq>& task_req, tapa::ostream<TaskResp>& task_resp, tapa::mmap<const Edge> edges, tapa::mmap<VertexAttr> vertices) {
  uint32_t ranks[kMaxPartitionSize];
  uint32_t inverse[kMaxPartitionSize];
  Update updates[64];
  int num_updates = 0;

load:
  for (Vid v = 0; v < kMaxPartitionSize; ++v) {
    const VertexAttr attr = vertices[v];
    ranks[v] = attr.ranking;
    inverse[v] = attr.out_degree_inverse;
  }

task:
  TAPA_WHILE_NOT_EOT(task_req) {
    const auto req = task_req.read(nullptr);
    TaskResp resp;
    resp.phase = req.phase;
    resp.pid = req.pid;
    if (req.phase == TaskReq::SCATTER) {
      num_updates = 0;
      for (Eid eid = 0; eid < req.num_edges; ++eid) {
#pragma HLS pipeline II = 1
        Edge edge = edges[eid];
        if (edge.src == edge.dst) continue;
        Update& update = updates[num_updates++];
        update.dst = edge.dst;
        update.delta = (uint64_t(ranks[edge.src % kMaxPartitionSize]) * inverse[edge.src % kMaxPartitionSize]) >> 16;
      }
      resp.count = num_updates;
    } else {
      for (auto& rank : ranks) rank = 0;
      for (int i = 0; i < num_updates; ++i) {
        ranks[updates[i].dst % kMaxPartitionSize] += updates[i].delta;
      }
      // damping of 217/256
      for (Vid v = 0; v < kMaxPartitionSize; ++v) {
        ranks[v] = 39 + (ranks[v] * 217 >> 8);
        if (req.is_last) {
          vertices[v].ranking = ranks[v];
        }
      }
      resp.count = 1;
    }
    task_resp.write(resp);
  }
  task_req.open();
}

void PageRank(tapa::mmaps<const Edge, kNumPes> edges, tapa::mmaps<VertexAttr, kNumPes> vertices, tapa::mmap<uint64_t> metadata, uint32_t num_edges, uint32_t iterations) {
  tapa::streams<TaskReq, kNumPes, 2> task_req("task_req");
  tapa::streams<TaskResp, kNumPes, 2> task_resp("task_resp");
  tapa::task().invoke(Control, num_edges, iterations, task_req, task_resp, metadata).invoke<tapa::join, kNumPes>(ProcElem, task_req, task_resp, edges, vertices);
}
