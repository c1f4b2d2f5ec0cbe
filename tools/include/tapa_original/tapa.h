// What libclang needs to read a TAPA source for tools/port.py: declarations, and no other header. Nothing here runs; tools/include/tapa_native has what g++ takes for the check.
#pragma once
typedef unsigned long size_t;
typedef long ssize_t;
typedef signed char int8_t; typedef unsigned char uint8_t; typedef short int16_t; typedef unsigned short uint16_t;
typedef int int32_t; typedef unsigned uint32_t; typedef long int64_t; typedef unsigned long uint64_t;
typedef long intptr_t; typedef unsigned long uintptr_t; typedef long ptrdiff_t;

namespace std {
using nullptr_t = decltype(nullptr);
using ::size_t; using ::int8_t; using ::uint8_t; using ::int16_t; using ::uint16_t; using ::int32_t; using ::uint32_t; using ::int64_t; using ::uint64_t; using ::ptrdiff_t;
template <class T> class initializer_list {
  const T* first; size_t count;
 public:
  constexpr initializer_list() : first(nullptr), count(0) {}
  constexpr size_t size() const { return count; }
  constexpr const T* begin() const { return first; }
  constexpr const T* end() const { return first + count; }
};
template <class T> constexpr T min(T left, T right) { return right < left ? right : left; }
template <class T> constexpr T max(T left, T right) { return left < right ? right : left; }
template <class T> constexpr T abs(T value) { return value < 0 ? -value : value; }
template <class T> constexpr T clamp(T value, T low, T high) { return value < low ? low : high < value ? high : value; }
template <class T> void swap(T& left, T& right) { T kept = left; left = right; right = kept; }
template <class T> constexpr T&& move(T& value) { return static_cast<T&&>(value); }
template <class T> struct limits_of { static constexpr bool is_signed = T(-1) < T(0); static constexpr T high = is_signed ? T((((T(1) << (sizeof(T) * 8 - 2)) - 1) << 1) + 1) : T(-1); };
template <class T> struct numeric_limits {
  static constexpr T max() { return limits_of<T>::high; }
  static constexpr T min() { return limits_of<T>::is_signed ? T(-limits_of<T>::high - 1) : T(0); }
  static constexpr T lowest() { return min(); }
};
template <class T, size_t N> struct array {
  T cells[N];
  T& operator[](size_t at) { return cells[at]; }
  const T& operator[](size_t at) const { return cells[at]; }
  constexpr size_t size() const { return N; }
  void fill(T value) { for (size_t at = 0; at < N; ++at) cells[at] = value; }
  T* begin();
  T* end();
  const T* begin() const;
  const T* end() const;
};
template <class A, class B> struct is_same { static constexpr bool value = false; };
template <class A> struct is_same<A, A> { static constexpr bool value = true; };
template <class A, class B> constexpr bool is_same_v = is_same<A, B>::value;
template <bool, class A, class B> struct conditional { using type = A; };
template <class A, class B> struct conditional<false, A, B> { using type = B; };
template <bool is_first, class A, class B> using conditional_t = typename conditional<is_first, A, B>::type;
struct ostream { template <class T> ostream& operator<<(const T&); ostream& operator<<(ostream& (*)(ostream&)); };
extern ostream cout, cerr, clog;
ostream& endl(ostream&);
ostream& flush(ostream&);
}  // namespace std
using std::min; using std::max; using std::abs;
void* memcpy(void*, const void*, size_t);
void* memset(void*, int, size_t);

namespace tapa {
template <int... I> struct numbers;
template <class T, T... I> struct sequence { using type = numbers<I...>; };
template <int N> using all_numbers = typename __make_integer_seq<sequence, int, N>::type;
}  // namespace tapa
#include "tapa_library.h"
namespace tapa {
template <class T> struct istream {
  T read(); T read(std::nullptr_t); T read(bool&); bool try_read(T&); istream& operator>>(T&);
  T peek(std::nullptr_t); T peek(bool&); T peek(bool&, bool&); bool try_peek(T&); bool try_peek(T&, bool&);
  bool eot(std::nullptr_t); bool eot(bool&); bool try_eot(bool&);
  bool empty(); void open(); bool try_open();
};
template <class T> struct ostream {
  void write(const T&); bool try_write(const T&); ostream& operator<<(const T&);
  void close(); bool try_close(); bool full();
};
template <class T, unsigned long D = 2> struct stream : istream<T>, ostream<T> { static constexpr int depth = D; stream(); stream(const char*); };
template <class T, unsigned long N> struct istreams { static constexpr int length = N; istream<T>& operator[](int) const; };
template <class T, unsigned long N> struct ostreams { static constexpr int length = N; ostream<T>& operator[](int) const; };
template <class T, unsigned long N, unsigned long D = 2> struct streams : istreams<T, N>, ostreams<T, N> {
  static constexpr int length = N; static constexpr int depth = D;
  streams(); streams(const char*); stream<T, D>& operator[](int) const;
};
template <class T> struct mmap { T& operator[](uint64_t) const; };
template <class T, unsigned long N> struct mmaps { static constexpr int length = N; mmap<T>& operator[](int) const; };
template <class T> struct async_mmap {
  ostream<int64_t> read_addr; istream<T> read_data; ostream<int64_t> write_addr; ostream<T> write_data; istream<uint8_t> write_resp;
};
template <class T, unsigned long N> struct async_mmaps { static constexpr int length = N; async_mmap<T>& operator[](int) const; };
template <class T> using immap = mmap<const T>;
template <class T> using ommap = mmap<T>;
struct seq {};
constexpr int join = 0;
constexpr int detach = -1;
struct task {
  template <class F, class... A> task& invoke(F&& leaf, A&&... arguments);
  template <int mode, class F, class... A> task& invoke(F&& leaf, A&&... arguments);
  template <int mode, int count, class F, class... A> task& invoke(F&& leaf, A&&... arguments);
};
}  // namespace tapa
#include "ap_int.h"

#define INT8_MAX 127
#define INT16_MAX 32767
#define INT32_MAX 2147483647
#define INT64_MAX 9223372036854775807l
#define INT8_MIN (-128)
#define INT16_MIN (-32768)
#define INT32_MIN (-2147483647 - 1)
#define INT64_MIN (-9223372036854775807l - 1)
#define INT_MAX 2147483647
#define INT_MIN (-2147483647 - 1)
#define UINT_MAX 4294967295u
#define SHRT_MAX 32767
#define UINT8_MAX 255
#define UINT16_MAX 65535
#define UINT32_MAX 4294967295u
#define UINT64_MAX 18446744073709551615ul
#define SIZE_MAX 18446744073709551615ul
