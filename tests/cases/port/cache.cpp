// A direct-mapped cache before an async_mmap with one request at a time; requests and answers are structs, statistics go to a stream.
#include <cstdint>

#include <tapa.h>

constexpr unsigned kLines = 4;
constexpr unsigned kWords = 2;

struct MemReq {
  uint32_t addr;
  uint32_t data;
  bool is_write;
};
using Line = tapa::vec_t<uint32_t, kWords>;

inline unsigned LineOf(uint32_t addr) { return addr / kWords % kLines; }

void Cache(tapa::istream<MemReq>& req, tapa::ostream<uint32_t>& resp, tapa::async_mmap<Line>& mem, tapa::ostream<uint32_t>& misses) {
  Line lines[kLines];
  uint32_t tags[kLines];
  bool valid[kLines] = {};
  uint32_t count = 0;
  TAPA_WHILE_NOT_EOT(req) {
    const auto r = req.read(nullptr);
    const unsigned line = LineOf(r.addr);
    const uint32_t tag = r.addr / kWords;
    if (!valid[line] || tags[line] != tag) {
      ++count;
      mem.read_addr.write(tag);
      lines[line] = mem.read_data.read();
      tags[line] = tag;
      valid[line] = true;
    }
    if (r.is_write) {
      Line updated = lines[line];
      updated[r.addr % kWords] = r.data;
      lines[line] = updated;
      mem.write_addr.write(tag);
      mem.write_data.write(updated);
      mem.write_resp.read();
    } else {
      resp.write(lines[line][r.addr % kWords]);
    }
  }
  req.open();
  resp.close();
  misses << count;
}

void Client(tapa::mmap<const uint32_t> program, int n, tapa::ostream<MemReq>& req) {
  for (int i = 0; i < n; ++i) {
    const uint32_t word = program[i];
    MemReq r;
    r.addr = word & 0xf;
    r.data = word >> 8;
    r.is_write = (word >> 7) & 1;
    req << r;
  }
  req.close();
}

void Log(tapa::istream<uint32_t>& resp, tapa::istream<uint32_t>& misses, tapa::mmap<uint32_t> log) {
  int at = 1;
  TAPA_WHILE_NOT_EOT(resp) log[at++] = resp.read(nullptr);
  resp.open();
  log[0] = misses.read();
}

void CacheTop(tapa::mmap<const uint32_t> program, tapa::mmap<Line> mem, tapa::mmap<uint32_t> log, int n) {
  tapa::stream<MemReq, 4> req("req");
  tapa::stream<uint32_t, 4> resp("resp");
  tapa::stream<uint32_t> misses("misses");
  tapa::task().invoke(Client, program, n, req).invoke(Cache, req, resp, mem, misses).invoke(Log, resp, misses, log);
}
