// Breadth-first search, level by level: a queue of vertices in the task that has the levels, a server that answers with edges.
#include <cstdint>

#include <tapa.h>

using Vid = int32_t;
constexpr Vid kMaxVertices = 32;
constexpr int kUnseen = -1;

struct Range {
  uint32_t begin, end;
};

struct Request {
  enum class Op : uint8_t { kOffsets, kEdge, kStop };
  Op op;
  Vid vid;
};

static Range GetRange(tapa::ostream<Request>& req, tapa::istream<int32_t>& resp, Vid vid) {
  req.write({Request::Op::kOffsets, vid});
  uint32_t begin = resp.read();
  uint32_t end = resp.read();
  return {begin, end};
}

void Memory(tapa::mmap<const int32_t> offsets, tapa::mmap<const int32_t> edges, tapa::istream<Request>& req, tapa::ostream<int32_t>& resp) {
  for (bool running = true; running;) {
    auto request = req.read();
    switch (request.op) {
      case Request::Op::kOffsets:
        resp.write(offsets[request.vid]);
        resp.write(offsets[request.vid + 1]);
        break;
      case Request::Op::kEdge: {
        const int32_t target = edges[request.vid];
        resp.write(target);
        break;
      }
      case Request::Op::kStop:
        running = false;
    }
  }
}

void Search(Vid root, Vid num_vertices, tapa::ostream<Request>& req, tapa::istream<int32_t>& resp, tapa::mmap<int32_t> levels, tapa::ostream<Vid>& order) {
  int32_t level[kMaxVertices];
  Vid queue[kMaxVertices];
  for (Vid v = 0; v < num_vertices; ++v) level[v] = kUnseen;
  int head = 0, tail = 0;
  queue[tail++] = root;
  level[root] = 0;
  do {
    const Vid v = queue[head++];
    order << v;
    const auto [begin, end] = GetRange(req, resp, v);
    for (uint32_t e = begin; e < end; ++e) {
      req.write(Request{Request::Op::kEdge, Vid(e)});
      const Vid u = resp.read();
      if (level[u] != kUnseen) continue;
      level[u] = level[v] + 1;
      queue[tail++] = u;
    }
  } while (head != tail);
  order.close();
  req.write({Request::Op::kStop, 0});
  for (Vid v = 0; v < num_vertices; ++v) levels[v] = level[v];
}

void Keep(tapa::istream<Vid>& order, tapa::mmap<Vid> visited) {
  size_t count = 0;
  TAPA_WHILE_NOT_EOT(order) { visited[count++] = order.read(nullptr); }
  order.open();
}

void Bfs(tapa::mmap<const int32_t> offsets, tapa::mmap<const int32_t> edges, tapa::mmap<int32_t> levels, tapa::mmap<Vid> visited, Vid root, Vid num_vertices) {
  tapa::stream<Request, 2> req("req");
  tapa::stream<int32_t, 2> resp("resp");
  tapa::stream<Vid, 4> order("order");
  tapa::task().invoke(Memory, offsets, edges, req, resp).invoke(Search, root, num_vertices, req, resp, levels, order).invoke(Keep, order, visited);
}
