// `ap_int` and `ap_uint` as libclang reads them: which type each operation gives. A value of W bits is in the next larger kind.
#pragma once
template <int B> struct ap_least { typedef unsigned long type; };
template <> struct ap_least<1> { typedef unsigned char type; };
template <> struct ap_least<2> { typedef unsigned short type; };
template <> struct ap_least<4> { typedef unsigned type; };
constexpr int ap_bytes(int bits) { return bits <= 8 ? 1 : bits <= 16 ? 2 : bits <= 32 ? 4 : 8; }
constexpr int ap_most(int left, int right) { return left < right ? right : left; }
constexpr int ap_both(int left, bool is_left_signed, int right, bool is_right_signed) { return ap_most(left + (is_right_signed && !is_left_signed), right + (is_left_signed && !is_right_signed)); }

template <int W, bool S> struct ap_value;
template <int W> using ap_uint = ap_value<W, false>;
template <int W> using ap_int = ap_value<W, true>;
template <class T> struct ap_of {};
#define AP_OF(kind, bits, sign) template <> struct ap_of<kind> { static constexpr int width = bits; static constexpr bool is_signed = sign; };
AP_OF(bool, 1, false) AP_OF(char, 8, true) AP_OF(signed char, 8, true) AP_OF(unsigned char, 8, false) AP_OF(short, 16, true) AP_OF(unsigned short, 16, false) AP_OF(int, 32, true)
AP_OF(unsigned, 32, false) AP_OF(long, 64, true) AP_OF(unsigned long, 64, false) AP_OF(long long, 64, true) AP_OF(unsigned long long, 64, false)
#undef AP_OF

struct ap_bit { operator bool() const; ap_bit& operator=(bool); ap_bit& operator=(const ap_bit&); };
struct ap_range { operator unsigned long() const; ap_range& operator=(unsigned long); ap_range& operator=(const ap_range&); unsigned long to_uint64() const; unsigned to_uint() const; int to_int() const; };
template <int W, bool S> struct ap_value {
  static constexpr int width = W;
  typename ap_least<ap_bytes(W)>::type bits;
  ap_value();
  ap_value(bool); ap_value(char); ap_value(signed char); ap_value(unsigned char); ap_value(short); ap_value(unsigned short);
  ap_value(int); ap_value(unsigned); ap_value(long); ap_value(unsigned long); ap_value(long long); ap_value(unsigned long long);
  template <int V, bool R> ap_value(const ap_value<V, R>&);
  ap_value(const ap_range&); ap_value(const ap_bit&);
  operator unsigned long() const;
  unsigned long to_uint64() const; long to_int64() const; unsigned to_uint() const; int to_int() const; bool to_bool() const;
  ap_range range(int high, int low) const; ap_range operator()(int high, int low) const; ap_bit operator[](int at) const; ap_bit bit(int at) const; bool test(int at) const;
  bool or_reduce() const; bool and_reduce() const; bool xor_reduce() const;
  template <class T> ap_value& operator+=(T); template <class T> ap_value& operator-=(T); template <class T> ap_value& operator*=(T);
  template <class T> ap_value& operator/=(T); template <class T> ap_value& operator%=(T);
  template <class T> ap_value& operator&=(T); template <class T> ap_value& operator|=(T); template <class T> ap_value& operator^=(T);
  ap_value& operator<<=(int); ap_value& operator>>=(int); ap_value& operator++(); ap_value& operator--(); ap_value operator++(int); ap_value operator--(int);
  ap_value operator~() const; ap_value<W + 1, true> operator-() const; bool operator!() const; ap_value operator<<(int) const; ap_value operator>>(int) const;
};
#define AP_TWO(op, w, s)                                                                                                                    \
  template <int W, bool S, int V, bool R> ap_value<w, s> operator op(const ap_value<W, S>&, const ap_value<V, R>&);                       \
  template <int W, bool S, class T, int V = ap_of<T>::width, bool R = ap_of<T>::is_signed> ap_value<w, s> operator op(const ap_value<W, S>&, T);
#define AP_LEFT(op, w, s) template <int V, bool R, class T, int W = ap_of<T>::width, bool S = ap_of<T>::is_signed> ap_value<w, s> operator op(T, const ap_value<V, R>&);
#define AP_BOTH(op, w, s) AP_TWO(op, w, s) AP_LEFT(op, w, s)
AP_BOTH(+, (ap_both(W, S, V, R) + 1), (S || R)) AP_BOTH(-, (ap_both(W, S, V, R) + 1), true) AP_BOTH(*, (W + V), (S || R))
AP_BOTH(/, (W + R), (S || R)) AP_BOTH(%, (W < V + (!R && S) ? W : V + (!R && S)), S)
AP_BOTH(&, (ap_both(W, S, V, R)), (S || R)) AP_BOTH(|, (ap_both(W, S, V, R)), (S || R)) AP_BOTH(^, (ap_both(W, S, V, R)), (S || R))
#undef AP_TWO
#undef AP_LEFT
#undef AP_BOTH
#define AP_TEST(op)                                                                          \
  template <int W, bool S, int V, bool R> bool operator op(const ap_value<W, S>&, const ap_value<V, R>&); \
  template <int W, bool S, class T, int V = ap_of<T>::width> bool operator op(const ap_value<W, S>&, T); \
  template <int V, bool R, class T, int W = ap_of<T>::width> bool operator op(T, const ap_value<V, R>&);
AP_TEST(==) AP_TEST(!=) AP_TEST(<) AP_TEST(<=) AP_TEST(>) AP_TEST(>=)
#undef AP_TEST
