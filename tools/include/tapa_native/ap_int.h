// `ap_int` and `ap_uint` of at most 64 bits as a native program has them, for the check of a port. What is between has up to 128 bits.
#pragma once
#include <cstdint>
#include <type_traits>

template <int B> struct ap_least { typedef uint64_t type; };
template <> struct ap_least<1> { typedef uint8_t type; };
template <> struct ap_least<2> { typedef uint16_t type; };
template <> struct ap_least<4> { typedef uint32_t type; };
constexpr int ap_bytes(int bits) { return bits <= 8 ? 1 : bits <= 16 ? 2 : bits <= 32 ? 4 : 8; }
constexpr int ap_most(int left, int right) { return left < right ? right : left; }
constexpr int ap_both(int left, bool is_left_signed, int right, bool is_right_signed) { return ap_most(left + (is_right_signed && !is_left_signed), right + (is_left_signed && !is_right_signed)); }

template <int W, bool S> struct ap_value;
template <int W, bool S> struct ap_part {   // bits from `low` up to `high`
  ap_value<W, S>& of; int high, low;
  operator uint64_t() const { return (uint64_t) (of.value() >> low) & ones(); }
  uint64_t ones() const { return high - low > 62 ? ~0ull : (2ull << (high - low)) - 1; }
  ap_part& operator=(uint64_t it) {
    of = ap_value<W, S>((of.value() & ~((__int128) ones() << low)) | (__int128) (it & ones()) << low);
    return *this;
  }
  ap_part& operator=(const ap_part& it) { return *this = (uint64_t) it; }
  template <int V, bool R> ap_part& operator=(const ap_part<V, R>& it) { return *this = (uint64_t) it; }
  uint64_t to_uint64() const { return *this; }
  unsigned to_uint() const { return (unsigned) (uint64_t) *this; }
  int to_int() const { return (int) (uint64_t) *this; }
};
template <int W> using ap_uint = ap_value<W, false>;
template <int W> using ap_int = ap_value<W, true>;
template <class T> using ap_if = std::enable_if_t<std::is_integral_v<T>, int>;
template <class T> constexpr int ap_width = std::is_same_v<T, bool> ? 1 : 8 * sizeof(T);

// A result between two assignments: its value, cut to its width.
template <int W, bool S> struct ap_value {
  static constexpr int width = W;
  using kept = std::conditional_t<(W > 64), unsigned __int128, typename ap_least<ap_bytes(W)>::type>;
  kept bits;
  static constexpr __int128 cut(__int128 it) {
    if (W >= 128) return it;
    unsigned __int128 low = (unsigned __int128) it & (((unsigned __int128) 1 << (W & 127)) - 1);
    return S && low >> (W - 1) & 1 ? (__int128) (low | ~(((unsigned __int128) 1 << (W & 127)) - 1)) : (__int128) low;
  }
  constexpr ap_value() : bits(0) {}
  template <class T, ap_if<T> = 0> constexpr ap_value(T it) : bits((kept) cut(it)) {}
  constexpr explicit ap_value(__int128 it) : bits((kept) cut(it)) {}
  template <int V, bool R> constexpr ap_value(const ap_value<V, R>& it) : bits((kept) cut(it.value())) {}
  constexpr __int128 value() const { return cut((__int128) (unsigned __int128) bits); }
  constexpr operator uint64_t() const { return (uint64_t) value(); }
  uint64_t to_uint64() const { return (uint64_t) value(); }
  int64_t to_int64() const { return (int64_t) value(); }
  unsigned to_uint() const { return (unsigned) value(); }
  int to_int() const { return (int) value(); }
  bool to_bool() const { return value() != 0; }
  template <int V, bool R> constexpr ap_value(const ap_part<V, R>& it) : bits((kept) cut((__int128) (uint64_t) it)) {}
  using part = ap_part<W, S>;
  part range(int high, int low) const { return {const_cast<ap_value&>(*this), high, low}; }
  part operator()(int high, int low) const { return range(high, low); }
  part operator[](int at) const { return range(at, at); }
  part bit(int at) const { return range(at, at); }
  bool test(int at) const { return (uint64_t) range(at, at); }
  template <class T> ap_value& operator+=(T it) { return *this = *this + it; }
  template <class T> ap_value& operator-=(T it) { return *this = *this - it; }
  template <class T> ap_value& operator*=(T it) { return *this = *this * it; }
  template <class T> ap_value& operator&=(T it) { return *this = *this & it; }
  template <class T> ap_value& operator|=(T it) { return *this = *this | it; }
  template <class T> ap_value& operator^=(T it) { return *this = *this ^ it; }
  template <class T> ap_value& operator/=(T it) { return *this = *this / it; }
  template <class T> ap_value& operator%=(T it) { return *this = *this % it; }
  ap_value& operator<<=(int by) { return *this = *this << by; }
  ap_value& operator>>=(int by) { return *this = *this >> by; }
  ap_value& operator++() { return *this = ap_value(value() + 1); }
  ap_value& operator--() { return *this = ap_value(value() - 1); }
  ap_value operator++(int) { ap_value old = *this; ++*this; return old; }
  ap_value operator--(int) { ap_value old = *this; --*this; return old; }
  ap_value operator~() const { return ap_value(~value()); }
  ap_value<W + 1, true> operator-() const { return ap_value<W + 1, true>(-value()); }
  bool operator!() const { return value() == 0; }
  ap_value operator<<(int by) const { return ap_value(by >= W ? (__int128) 0 : (__int128) ((unsigned __int128) value() << by)); }
  ap_value operator>>(int by) const { return ap_value(by >= 127 ? (__int128) (value() < 0 ? -1 : 0) : value() >> by); }
};

template <class T> struct ap_as;   // any number as an ap_value
template <int W, bool S> struct ap_as<ap_value<W, S>> { static constexpr int width = W; static constexpr bool is_signed = S; static __int128 of(const ap_value<W, S>& it) { return it.value(); } };
template <class T> struct ap_as { static constexpr int width = ap_width<T>; static constexpr bool is_signed = std::is_signed_v<T>; static __int128 of(T it) { return it; } };
template <class T> struct ap_is : std::false_type {};
template <int W, bool S> struct ap_is<ap_value<W, S>> : std::true_type {};
template <class A, class B> using ap_two = std::enable_if_t<(ap_is<A>::value || ap_is<B>::value) && (ap_is<A>::value || std::is_integral_v<A>) && (ap_is<B>::value || std::is_integral_v<B>), int>;

#define AP_SHAPE constexpr int W = ap_as<A>::width, V = ap_as<B>::width; constexpr bool S = ap_as<A>::is_signed, R = ap_as<B>::is_signed; (void) W; (void) V; (void) S; (void) R;
#define AP_TWO(op, w, s) template <class A, class B, ap_two<A, B> = 0> auto operator op(const A& left, const B& right) { AP_SHAPE return ap_value<(w), (s)>((__int128) (ap_as<A>::of(left) op ap_as<B>::of(right))); }
AP_TWO(+, ap_both(W, S, V, R) + 1, S || R) AP_TWO(-, ap_both(W, S, V, R) + 1, true) AP_TWO(*, W + V, S || R) AP_TWO(/, W + R, S || R)
AP_TWO(%, (W < V + (!R && S) ? W : V + (!R && S)), S) AP_TWO(&, ap_both(W, S, V, R), S || R) AP_TWO(|, ap_both(W, S, V, R), S || R) AP_TWO(^, ap_both(W, S, V, R), S || R)
#undef AP_TWO
#define AP_TEST(op) template <class A, class B, ap_two<A, B> = 0> bool operator op(const A& left, const B& right) { return ap_as<A>::of(left) op ap_as<B>::of(right); }
AP_TEST(==) AP_TEST(!=) AP_TEST(<) AP_TEST(<=) AP_TEST(>) AP_TEST(>=)
#undef AP_TEST
#undef AP_SHAPE
