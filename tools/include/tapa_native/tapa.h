// The simulation of a TAPA source as a native program, for the check of tools/port.py. Streams hold at most their depth, so a deadlock at the declared depths is found;
// what they carry is kept for the report, by the rules of `tapa run`.
#pragma once
#include <algorithm>
#include <array>
#include <limits>
#include <utility>
#include "simulated.h"
using std::size_t;

namespace tapa {
template <int... I> struct numbers;
template <class> struct numbers_of;
template <int... I> struct numbers_of<std::integer_sequence<int, I...>> { using type = numbers<I...>; };
template <int N> using all_numbers = typename numbers_of<std::make_integer_sequence<int, N>>::type;
}  // namespace tapa
#include "../tapa_original/tapa_library.h"
#include "ap_int.h"

namespace tapa {
namespace sim {
struct place { unsigned long offset, size; };
template <class T> struct floats { static constexpr int count = 0; static constexpr place places[1] = {}; };   // where a value has floats
template <> struct floats<float> { static constexpr int count = 1; static constexpr place places[1] = {{0, 4}}; };
template <> struct floats<double> { static constexpr int count = 1; static constexpr place places[1] = {{0, 8}}; };
template <class T> constexpr int words = (sizeof(T) + 7) / 8;
#ifdef TAPA_FIXED
inline void to_fixed(unsigned char* bytes, const place& it) {
  if (it.size == 4) { float from; std::memcpy(&from, bytes + it.offset, 4); int32_t to = (int32_t) __builtin_lround(__builtin_ldexp((double) from, TAPA_FIXED)); std::memcpy(bytes + it.offset, &to, 4); }
  else { double from; std::memcpy(&from, bytes + it.offset, 8); int64_t to = __builtin_llround(__builtin_ldexp(from, TAPA_FIXED)); std::memcpy(bytes + it.offset, &to, 8); }
}
inline void from_fixed(unsigned char* bytes, const place& it) {
  if (it.size == 4) { int32_t from; std::memcpy(&from, bytes + it.offset, 4); float to = (float) __builtin_ldexp((double) from, -TAPA_FIXED); std::memcpy(bytes + it.offset, &to, 4); }
  else { int64_t from; std::memcpy(&from, bytes + it.offset, 8); double to = __builtin_ldexp((double) from, -TAPA_FIXED); std::memcpy(bytes + it.offset, &to, 8); }
}
#else
inline void to_fixed(unsigned char*, const place&) {}
inline void from_fixed(unsigned char*, const place&) {}
#endif
template <class T> void shown(T value, uint64_t* out) {   // the bits of each word as `tapa run` prints them
  if constexpr (std::is_class_v<T>) __builtin_clear_padding(&value);
  unsigned char bytes[8 * words<T>] = {};
  std::memcpy(bytes, (const void*) &value, sizeof(T));
  for (int at = 0; at < floats<T>::count; ++at) to_fixed(bytes, floats<T>::places[at]);
  std::memcpy(out, bytes, sizeof bytes);
}
template <class T> list<T> cells(const list<uint64_t>* given) {   // by words
  list<T> out;
  for (size_t at = 0; at < given[0].size(); ++at) {
    unsigned char bytes[8 * words<T>] = {};
    for (int number = 0; number < words<T>; ++number) if (at < given[number].size()) std::memcpy(bytes + 8 * number, &given[number][at], 8);
    for (int number = 0; number < floats<T>::count; ++number) from_fixed(bytes, floats<T>::places[number]);
    T it{};
    std::memcpy((void*) &it, bytes, sizeof(T));
    out.add(it);
  }
  return out;
}
template <class T> void memory(const char* name, int element, const list<T>& cells) {
  for (int number = 0; number < words<T>; ++number) {
    std::printf("memory %s %d %d:", name, element, number);
    for (size_t at = 0; at < cells.size(); ++at) {
      uint64_t bits[words<T>];
      shown(cells[at], bits);
      std::printf(" %lu", bits[number]);
    }
    std::printf("\n");
  }
}
template <class T> struct channel : queue {
  channel(size_t depth) : queue(sizeof(T), words<T>, depth) {}
  void put(const T& value, bool is_end) {
    uint64_t bits[words<T>];
    shown(value, bits);
    queue::put((const void*) &value, bits, is_end);
  }
  T value() const { T it{}; std::memcpy((void*) &it, front().value, sizeof(T)); return it; }
  T take() { T it{}; queue::take((void*) &it, false); return it; }
};
}  // namespace sim

template <class T> struct istream {
  sim::channel<T>* in = nullptr;
  bool empty() { return in->is_empty(); }
  T read() { in->wait(); return in->take(); }
  T read(std::nullptr_t) { in->look_for_token(); return read(); }
  T read(bool& ok) { T value{}; ok = try_read(value); return value; }
  bool try_read(T& value) { if (!in->has(false)) return false; value = in->take(); return true; }
  istream& operator>>(T& value) { value = read(); return *this; }
  T peek(std::nullptr_t) { in->wait_for_token(); return in->value(); }
  T peek(bool& ok) { T value{}; ok = try_peek(value); return value; }
  T peek(bool& ok, bool& is_end) { bool any = !empty(); is_end = any && in->front().is_end; ok = any && !is_end; return ok ? in->value() : T{}; }
  bool try_peek(T& value) { if (!in->has(false)) return false; value = in->value(); return true; }
  bool eot(std::nullptr_t) { in->wait(); return in->front().is_end; }
  bool eot(bool& ok) { ok = !empty(); return ok && in->front().is_end; }
  bool try_eot(bool& is_end) { bool ok; is_end = eot(ok); return ok; }
  void open() { in->wait(); in->queue::take(nullptr, true); }
  bool try_open() { if (!in->has(true)) return false; in->queue::take(nullptr, true); return true; }
};
template <class T> struct ostream {
  sim::channel<T>* out = nullptr;
  bool full() { return out->is_still_full(); }
  void write(const T& value) { while (full()) {} out->put(value, false); }
  bool try_write(const T& value) { if (full()) return false; out->put(value, false); return true; }
  ostream& operator<<(const T& value) { write(value); return *this; }
  void close() { while (full()) {} out->put(T{}, true); }
  bool try_close() { if (full()) return false; close(); return true; }
};
template <class T, unsigned long D = 2> struct stream : istream<T>, ostream<T> {
  static constexpr int depth = D;
  stream() { this->in = this->out = new sim::channel<T>(D); }   // it outlives the task that declares it, for what is detached
  stream(const char* name, int element = -1) : stream() { this->in->name(name, element); }
};
template <class T, unsigned long N> struct istreams { static constexpr int length = N; istream<T> each[N]; int readers = 0; istream<T>& operator[](int at) { return each[at]; } };
template <class T, unsigned long N> struct ostreams { static constexpr int length = N; ostream<T> each[N]; int writers = 0; ostream<T>& operator[](int at) { return each[at]; } };
template <class T, unsigned long N, unsigned long D = 2> struct streams {
  static constexpr int length = N; static constexpr int depth = D;
  stream<T, D> each[N];
  int readers = 0, writers = 0;
  streams() {}
  streams(const char* name) { for (unsigned long at = 0; at < N; ++at) each[at].in->name(name, (int) at); }
  stream<T, D>& operator[](int at) { return each[at]; }
};
template <class T> struct mmap {
  T* cells = nullptr; uint64_t size = 0;
  mmap() = default;
  mmap(T* cells, uint64_t size) : cells(cells), size(size) {}
  template <class U> mmap(mmap<U> it) : cells(it.cells), size(it.size) {}
  T& operator[](uint64_t at) const {   // past the end 0 is read, and what is written goes
    static std::remove_const_t<T> none; none = std::remove_const_t<T>{};
    return at < size ? cells[at] : none;
  }
};
template <class T, unsigned long N> struct mmaps { static constexpr int length = N; mmap<T> each[N]; int taken = 0; mmap<T> operator[](int at) const { return each[at]; } };
template <class T> using immap = mmap<const T>;
template <class T> using ommap = mmap<T>;
template <class T> struct async_mmap {
  sim::channel<int64_t>*read_at = new sim::channel<int64_t>(16), *write_at = new sim::channel<int64_t>(16);
  sim::channel<T>*got = new sim::channel<T>(16), *given = new sim::channel<T>(16);
  sim::channel<uint8_t>* answers = new sim::channel<uint8_t>(16);
  ostream<int64_t> read_addr{read_at}; istream<T> read_data{got}; ostream<int64_t> write_addr{write_at}; ostream<T> write_data{given}; istream<uint8_t> write_resp{answers};
  void serve(mmap<T> cells) {
    for (;; sim::yield()) {
      while (!read_at->empty() && !got->is_full()) got->put(cells[read_at->take()], false);
      while (!write_at->empty() && !given->empty() && !answers->is_full()) { int64_t at = write_at->take(); cells[at] = given->take(); answers->put(0, false); }
    }
  }
};
template <class T, unsigned long N> struct async_mmaps { static constexpr int length = N; async_mmap<T> each[N]; async_mmap<T>& operator[](int at) { return each[at]; } };
struct seq { int next = 0; };
constexpr int join = 0, detach = -1;

namespace sim {   // what a parameter gets of an argument
template <class T> struct server : body { async_mmap<T>* of; mmap<T> cells; void run() override { of->serve(cells); } };
template <class T> async_mmap<T>* served(mmap<T> it) {
  auto* made = new server<T>;
  made->of = new async_mmap<T>; made->cells = it;
  spawn(made, nullptr, true);
  return made->of;
}
template <class P> struct given { template <class A> static P of(A& it) { return static_cast<P>(it); } static P of(seq& it) { return static_cast<P>(it.next++); } };
template <class T> struct given<istream<T>&> {
  static istream<T>& of(istream<T>& it) { return it; }
  template <unsigned long N, unsigned long D> static istream<T>& of(streams<T, N, D>& it) { return it[it.readers++]; }
  template <unsigned long N> static istream<T>& of(istreams<T, N>& it) { return it[it.readers++]; }
};
template <class T> struct given<istream<T>> { template <class A> static istream<T> of(A& it) { return given<istream<T>&>::of(it); } };
template <class T> struct given<ostream<T>&> {
  static ostream<T>& of(ostream<T>& it) { return it; }
  template <unsigned long N, unsigned long D> static ostream<T>& of(streams<T, N, D>& it) { return it[it.writers++]; }
  template <unsigned long N> static ostream<T>& of(ostreams<T, N>& it) { return it[it.writers++]; }
};
template <class T> struct given<ostream<T>> { template <class A> static ostream<T> of(A& it) { return given<ostream<T>&>::of(it); } };
template <class T, unsigned long N> struct given<istreams<T, N>&> {
  template <class A> static istreams<T, N>& of(A& it) { auto* made = new istreams<T, N>; for (unsigned long at = 0; at < N; ++at) made->each[at] = given<istream<T>&>::of(it); return *made; }
};
template <class T, unsigned long N> struct given<ostreams<T, N>&> {
  template <class A> static ostreams<T, N>& of(A& it) { auto* made = new ostreams<T, N>; for (unsigned long at = 0; at < N; ++at) made->each[at] = given<ostream<T>&>::of(it); return *made; }
};
template <class T> struct given<mmap<T>> {
  template <class U> static mmap<T> of(mmap<U>& it) { return it; }
  template <class U, unsigned long N> static mmap<T> of(mmaps<U, N>& it) { return it[it.taken++]; }
};
template <class T> struct given<mmap<T>&> { template <class A> static mmap<T>& of(A& it) { return *new mmap<T>(given<mmap<T>>::of(it)); } };
template <class T, unsigned long N> struct given<mmaps<T, N>> {
  template <class A> static mmaps<T, N> of(A& it) { mmaps<T, N> made; for (unsigned long at = 0; at < N; ++at) made.each[at] = given<mmap<T>>::of(it); return made; }
};
template <class T, unsigned long N> struct given<mmaps<T, N>&> { template <class A> static mmaps<T, N>& of(A& it) { return *new mmaps<T, N>(given<mmaps<T, N>>::of(it)); } };
template <class T> struct given<async_mmap<T>&> { static async_mmap<T>& of(async_mmap<T>& it) { return it; } template <class A> static async_mmap<T>& of(A& it) { return *served<T>(given<mmap<T>>::of(it)); } };
template <class T> struct given<async_mmap<T>> { template <class A> static async_mmap<T> of(A& it) { return *served<T>(given<mmap<T>>::of(it)); } };
template <class T, unsigned long N> struct given<async_mmaps<T, N>&> {
  template <class A> static async_mmaps<T, N>& of(A& it) { auto* made = new async_mmaps<T, N>; for (unsigned long at = 0; at < N; ++at) made->each[at] = *served<T>(given<mmap<T>>::of(it)); return *made; }
};
template <int I, class P> struct bound { P it; };
template <class... P> struct leaf_of { using type = void (*)(P...); };
template <class N, class... P> struct call;   // a task with its arguments
template <int... I, class... P> struct call<numbers<I...>, P...> : body, bound<I, P>... {
  void (*leaf)(P...);
  call(void (*leaf)(P...), P... given) : bound<I, P>{static_cast<P>(given)}..., leaf(leaf) {}
  void run() override { leaf(static_cast<P>(static_cast<bound<I, P>&>(*this).it)...); }
};
}  // namespace sim

struct task {
  sim::list<sim::routine*> joined;
  template <class... P, class... A> task& invoke(void (*leaf)(P...), A&&... arguments) { return one<0>(leaf, arguments...); }
  template <int mode, class... P, class... A> task& invoke(void (*leaf)(P...), A&&... arguments) { return one<mode>(leaf, arguments...); }
  template <int mode, int count, class... P, class... A> task& invoke(void (*leaf)(P...), A&&... arguments) {
    for (int at = 0; at < count; ++at) one<mode>(leaf, arguments...);
    return *this;
  }
  template <int mode, class... P, unsigned long N, class... A> task& one(void (*leaf)(P...), const char (&)[N], A&... arguments) { return one<mode>(leaf, arguments...); }
  template <int mode, class... P, class... A> task& one(void (*leaf)(P...), A&... arguments) {
    auto* made = new sim::call<all_numbers<sizeof...(P)>, P...>{leaf, sim::given<P>::of(arguments)...};   // in braces, so from the first to the last
    auto* it = sim::spawn(made, sim::now, mode == detach || sim::now->is_detached);
    if (mode != detach) joined.add(it);
    return *this;
  }
  ~task() { for (size_t at = 0; at < joined.size(); ++at) while (!joined[at]->is_done) sim::yield(); }
};
}  // namespace tapa
