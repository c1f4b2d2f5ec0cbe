// How the native program of a check runs: each instance is a coroutine, all in one thread, one after the other. A port is checked as often as it is changed, so this compiles quickly:
// it includes little, and what does not depend on a type is not a template.
#pragma once
#include <ucontext.h>
#include <cstdint>
#include <cstdio>
#include <cstdlib>
#include <cstring>
#include <type_traits>

namespace tapa {
namespace sim {
template <class T> struct list {   // it grows, and keeps its cells until the program ends
  T* cells = nullptr;
  size_t count = 0, room = 0;
  list() = default;
  explicit list(size_t count) { for (; count; --count) add(T{}); }
  void add(const T& it) {
    if (count == room) {
      T* wider = new T[room = 2 * room + 4];
      for (size_t at = 0; at < count; ++at) wider[at] = cells[at];
      cells = wider;
    }
    cells[count++] = it;
  }
  T* data() const { return cells; }
  size_t size() const { return count; }
  T& operator[](size_t at) const { return cells[at]; }
};

struct body { virtual void run() = 0; };
template <class F> struct calling : body { F& what; calling(F& what) : what(what) {} void run() override { what(); } };
struct routine { ucontext_t context; body* what; routine* above; int number; bool is_detached, is_done; int children; };
inline list<routine*> routines;
inline routine* now = nullptr;
inline ucontext_t home;
inline unsigned long progress = 0;
inline void yield() { swapcontext(&now->context, &home); }
inline void start() { now->what->run(); now->is_done = true; ++progress; swapcontext(&now->context, &home); }
inline routine* spawn(body* what, routine* above, bool is_detached) {
  const size_t size = 1 << 18;
  routine* it = new routine();
  it->what = what; it->above = above; it->is_detached = is_detached;
  if (above) it->number = above->children++;
  getcontext(&it->context);
  it->context.uc_stack.ss_sp = std::malloc(size); it->context.uc_stack.ss_size = size; it->context.uc_link = &home;
  makecontext(&it->context, start, 0);
  routines.add(it);
  ++progress;
  return it;
}
inline bool run(routine* top) {   // whether the top task ended
  for (unsigned long idle = 0; !top->is_done && idle < 10000;) {
    unsigned long before = progress;
    for (size_t at = 0; at < routines.size(); ++at) {
      now = routines[at];
      if (!now->is_done) swapcontext(&home, &now->context);
      if (top->is_done) return true;   // what is detached stays where it is
    }
    idle = before == progress ? idle + 1 : 0;
  }
  return top->is_done;
}
[[noreturn]] inline void blind() { std::fprintf(stderr, "read(nullptr) finds no token\n"); std::exit(3); }

struct told { uint64_t bits; bool is_end; };
struct line { routine* at; const char* name; int element, word; list<told> tokens; };
inline list<line*> lines;
inline void show_place(const routine* it) {
  if (it->above == nullptr) return;
  show_place(it->above);
  std::printf("%d.", it->number);
}
inline void report() {   // what each stream carried
  for (size_t at = 0; at < lines.size(); ++at) {
    const line& it = *lines[at];
    std::printf("stream ");
    show_place(it.at);
    std::printf(" %s %d %d:", it.name, it.element, it.word);
    for (size_t number = 0; number < it.tokens.size(); ++number) {
      if (it.tokens[number].is_end) std::printf(" eot");
      else std::printf(" %lu", it.tokens[number].bits);
    }
    std::printf("\n");
  }
}

// A stream's cells without their type: a token is its bytes, its words as they are reported, and two flags.
struct queue {
  size_t size, width, depth, room = 0, first = 0, count = 0;
  unsigned char* cells = nullptr;
  line** logs = nullptr;
  struct token { uint64_t* shown; unsigned char* value; bool is_end, is_told; };
  token* held = nullptr;
  queue(size_t size, size_t width, size_t depth) : size(size), width(width), depth(depth) {}
  void name(const char* name, int element) {
    logs = new line*[width];
    for (size_t word = 0; word < width; ++word) lines.add(logs[word] = new line{now, name, element, (int) word, {}});
  }
  void widen() {
    token* wider = new token[2 * room + 4];
    for (size_t at = 0; at < count; ++at) wider[at] = held[(first + at) % room];
    for (size_t at = count; at < 2 * room + 4; ++at) wider[at] = {new uint64_t[width], (unsigned char*) std::malloc(size), false, false};
    held = wider; first = 0; room = 2 * room + 4;
  }
  void tell(const token& it) { for (size_t word = 0; logs && word < width; ++word) logs[word]->tokens.add({it.shown[word], it.is_end}); }
  void put(const void* value, const uint64_t* shown, bool is_end) {
    if (count == room) widen();
    token& it = held[(first + count++) % room];
    std::memcpy(it.value, value, size);
    std::memcpy(it.shown, shown, width * sizeof(uint64_t));
    it.is_end = is_end; it.is_told = !now->is_detached; ++progress;
    if (it.is_told) tell(it);
  }
  const token& front() const { return held[first]; }
  bool empty() const { return count == 0; }
  bool is_full() const { return count >= depth; }
  void take(void* value, bool is_end) {
    if (front().is_end != is_end) for (;;) yield();   // a bad token
    const token& it = front();
    if (value) std::memcpy(value, it.value, size);
    first = (first + 1) % room; --count; ++progress;
    if (!it.is_told && !now->is_detached) tell(it);
  }
  void wait() const { while (empty()) yield(); }
  bool is_empty() const { if (empty()) yield(); return empty(); }
  bool is_still_full() const { if (is_full()) yield(); return is_full(); }
  bool has(bool is_end) const { if (empty()) yield(); return !empty() && front().is_end == is_end; }
  void wait_for_token() const { wait(); if (front().is_end) for (;;) yield(); }
  void look_for_token() const { if (empty() || front().is_end) blind(); }
};

struct given_data { const char* name; list<uint64_t> cells; };
inline list<given_data> all_data;   // what the data file has, each number by its bits
inline const list<uint64_t>& data(const char* name) {
  for (size_t at = 0; at < all_data.size(); ++at) if (std::strcmp(all_data[at].name, name) == 0) return all_data[at].cells;
  static list<uint64_t> none;
  return none;
}
inline void read(const char* path) {   // a name, how many numbers, and these
  std::FILE* file = std::fopen(path, "r");
  char name[4096];
  unsigned long count, value;
  while (file && std::fscanf(file, "%4095s %lu", name, &count) == 2) {
    given_data it{strdup(name), {}};
    for (; count; --count) if (std::fscanf(file, "%lu", &value) == 1) it.cells.add(value);
    all_data.add(it);
  }
}
inline int64_t scalar(const char* name) {
  if (data(name).size()) return (int64_t) data(name)[0];
  std::fprintf(stderr, "the data have no %s\n", name);
  std::exit(3);
}
}  // namespace sim
}  // namespace tapa
