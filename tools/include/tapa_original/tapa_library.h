// What TAPA's library brings as plain C++: vectors and helpers. tools/port.py puts these bodies where they are called; the native program of its check compiles them.
#pragma once

namespace tapa {
template <int... I> struct numbers {};

template <class T, int N> struct vec_t {
  static constexpr int length = N;
  static constexpr int bytes = sizeof(T) * N;
  static constexpr int width = sizeof(T) * N * 8;
  T lanes[N];
  vec_t() = default;
  explicit vec_t(T value) { for (int lane = 0; lane < N; ++lane) lanes[lane] = value; }
  template <class... A> constexpr vec_t(T first, T second, A... rest) : lanes{first, second, T(rest)...} {}
  T& operator[](int lane) { return lanes[lane]; }
  const T& operator[](int lane) const { return lanes[lane]; }
  T get(int lane) const { return lanes[lane]; }
  void set(int lane, T value) { lanes[lane] = value; }
  void set(T value) { for (int lane = 0; lane < N; ++lane) lanes[lane] = value; }
  void shift(T value) { for (int lane = 1; lane < N; ++lane) lanes[lane - 1] = lanes[lane]; lanes[N - 1] = value; }
};
template <class T> struct vec_t<T, 1> {
  static constexpr int length = 1;
  T lanes[1];
  vec_t() = default;
  explicit vec_t(T value) : lanes{value} {}
  T& operator[](int lane) { return lanes[lane]; }
  const T& operator[](int lane) const { return lanes[lane]; }
  T get(int lane) const { return lanes[lane]; }
  void set(int lane, T value) { lanes[lane] = value; }
};

template <class T, int N, int... I> vec_t<T, N> lanes_plus(const vec_t<T, N>& left, const vec_t<T, N>& right, numbers<I...>) { return vec_t<T, N>(T(left.lanes[I] + right.lanes[I])...); }
template <class T, int N, int... I> vec_t<T, N> lanes_plus_one(const vec_t<T, N>& left, T right, numbers<I...>) { return vec_t<T, N>(T(left.lanes[I] + right)...); }
template <class T, int N> vec_t<T, N> operator+(const vec_t<T, N>& left, const vec_t<T, N>& right) { return lanes_plus(left, right, all_numbers<N>()); }
template <class T, int N> vec_t<T, N> operator+(const vec_t<T, N>& left, T right) { return lanes_plus_one(left, right, all_numbers<N>()); }
template <class T, int N> vec_t<T, N>& operator+=(vec_t<T, N>& left, const vec_t<T, N>& right) { left = lanes_plus(left, right, all_numbers<N>()); return left; }
template <class T, int N> vec_t<T, N>& operator+=(vec_t<T, N>& left, T right) { left = lanes_plus_one(left, right, all_numbers<N>()); return left; }
template <class T, int N, int... I> vec_t<T, N> lanes_minus(const vec_t<T, N>& left, const vec_t<T, N>& right, numbers<I...>) { return vec_t<T, N>(T(left.lanes[I] - right.lanes[I])...); }
template <class T, int N, int... I> vec_t<T, N> lanes_minus_one(const vec_t<T, N>& left, T right, numbers<I...>) { return vec_t<T, N>(T(left.lanes[I] - right)...); }
template <class T, int N> vec_t<T, N> operator-(const vec_t<T, N>& left, const vec_t<T, N>& right) { return lanes_minus(left, right, all_numbers<N>()); }
template <class T, int N> vec_t<T, N> operator-(const vec_t<T, N>& left, T right) { return lanes_minus_one(left, right, all_numbers<N>()); }
template <class T, int N> vec_t<T, N>& operator-=(vec_t<T, N>& left, const vec_t<T, N>& right) { left = lanes_minus(left, right, all_numbers<N>()); return left; }
template <class T, int N> vec_t<T, N>& operator-=(vec_t<T, N>& left, T right) { left = lanes_minus_one(left, right, all_numbers<N>()); return left; }
template <class T, int N, int... I> vec_t<T, N> lanes_times(const vec_t<T, N>& left, const vec_t<T, N>& right, numbers<I...>) { return vec_t<T, N>(T(left.lanes[I] * right.lanes[I])...); }
template <class T, int N, int... I> vec_t<T, N> lanes_times_one(const vec_t<T, N>& left, T right, numbers<I...>) { return vec_t<T, N>(T(left.lanes[I] * right)...); }
template <class T, int N> vec_t<T, N> operator*(const vec_t<T, N>& left, const vec_t<T, N>& right) { return lanes_times(left, right, all_numbers<N>()); }
template <class T, int N> vec_t<T, N> operator*(const vec_t<T, N>& left, T right) { return lanes_times_one(left, right, all_numbers<N>()); }
template <class T, int N> vec_t<T, N>& operator*=(vec_t<T, N>& left, const vec_t<T, N>& right) { left = lanes_times(left, right, all_numbers<N>()); return left; }
template <class T, int N> vec_t<T, N>& operator*=(vec_t<T, N>& left, T right) { left = lanes_times_one(left, right, all_numbers<N>()); return left; }
template <class T, int N, int... I> vec_t<T, N> lanes_and(const vec_t<T, N>& left, const vec_t<T, N>& right, numbers<I...>) { return vec_t<T, N>(T(left.lanes[I] & right.lanes[I])...); }
template <class T, int N, int... I> vec_t<T, N> lanes_and_one(const vec_t<T, N>& left, T right, numbers<I...>) { return vec_t<T, N>(T(left.lanes[I] & right)...); }
template <class T, int N> vec_t<T, N> operator&(const vec_t<T, N>& left, const vec_t<T, N>& right) { return lanes_and(left, right, all_numbers<N>()); }
template <class T, int N> vec_t<T, N> operator&(const vec_t<T, N>& left, T right) { return lanes_and_one(left, right, all_numbers<N>()); }
template <class T, int N> vec_t<T, N>& operator&=(vec_t<T, N>& left, const vec_t<T, N>& right) { left = lanes_and(left, right, all_numbers<N>()); return left; }
template <class T, int N> vec_t<T, N>& operator&=(vec_t<T, N>& left, T right) { left = lanes_and_one(left, right, all_numbers<N>()); return left; }
template <class T, int N, int... I> vec_t<T, N> lanes_or(const vec_t<T, N>& left, const vec_t<T, N>& right, numbers<I...>) { return vec_t<T, N>(T(left.lanes[I] | right.lanes[I])...); }
template <class T, int N, int... I> vec_t<T, N> lanes_or_one(const vec_t<T, N>& left, T right, numbers<I...>) { return vec_t<T, N>(T(left.lanes[I] | right)...); }
template <class T, int N> vec_t<T, N> operator|(const vec_t<T, N>& left, const vec_t<T, N>& right) { return lanes_or(left, right, all_numbers<N>()); }
template <class T, int N> vec_t<T, N> operator|(const vec_t<T, N>& left, T right) { return lanes_or_one(left, right, all_numbers<N>()); }
template <class T, int N> vec_t<T, N>& operator|=(vec_t<T, N>& left, const vec_t<T, N>& right) { left = lanes_or(left, right, all_numbers<N>()); return left; }
template <class T, int N> vec_t<T, N>& operator|=(vec_t<T, N>& left, T right) { left = lanes_or_one(left, right, all_numbers<N>()); return left; }
template <class T, int N, int... I> vec_t<T, N> lanes_xor(const vec_t<T, N>& left, const vec_t<T, N>& right, numbers<I...>) { return vec_t<T, N>(T(left.lanes[I] ^ right.lanes[I])...); }
template <class T, int N, int... I> vec_t<T, N> lanes_xor_one(const vec_t<T, N>& left, T right, numbers<I...>) { return vec_t<T, N>(T(left.lanes[I] ^ right)...); }
template <class T, int N> vec_t<T, N> operator^(const vec_t<T, N>& left, const vec_t<T, N>& right) { return lanes_xor(left, right, all_numbers<N>()); }
template <class T, int N> vec_t<T, N> operator^(const vec_t<T, N>& left, T right) { return lanes_xor_one(left, right, all_numbers<N>()); }
template <class T, int N> vec_t<T, N>& operator^=(vec_t<T, N>& left, const vec_t<T, N>& right) { left = lanes_xor(left, right, all_numbers<N>()); return left; }
template <class T, int N> vec_t<T, N>& operator^=(vec_t<T, N>& left, T right) { left = lanes_xor_one(left, right, all_numbers<N>()); return left; }

template <int first, int end, class T, int N, int... I> vec_t<T, end - first> lanes_from(const vec_t<T, N>& from, numbers<I...>) { return vec_t<T, end - first>(from.lanes[first + I]...); }
template <int first, int end, class T, int N> vec_t<T, end - first> truncated(const vec_t<T, N>& from) { return lanes_from<first, end>(from, all_numbers<end - first>()); }
template <int end, class T, int N> vec_t<T, end> truncated(const vec_t<T, N>& from) { return truncated<0, end>(from); }
template <class T, int N, int M, int... I, int... J> vec_t<T, N + M> lanes_of_both(const vec_t<T, N>& left, const vec_t<T, M>& right, numbers<I...>, numbers<J...>) {
  return vec_t<T, N + M>(left.lanes[I]..., right.lanes[J]...);
}
template <class T, int N, int M> vec_t<T, N + M> cat(const vec_t<T, N>& left, const vec_t<T, M>& right) { return lanes_of_both(left, right, all_numbers<N>(), all_numbers<M>()); }
template <class T, int N, int... I> vec_t<T, N> lanes_of_one(T value, numbers<I...>) { return vec_t<T, N>((I, value)...); }
template <int N, class T> vec_t<T, N> make_vec(T value) { return lanes_of_one<T, N>(value, all_numbers<N>()); }

template <class T> constexpr int widthof() { return sizeof(T) * 8; }
template <class T> constexpr int widthof(T) { return sizeof(T) * 8; }
template <class T> constexpr T round_up_div(T value, T by) { return (value + by - 1) / by; }
template <int by, class T> constexpr T round_up_div(T value) { return (value + T(by) - 1) / T(by); }
template <int by, class T> constexpr T round_up(T value) { return (value + T(by) - 1) / T(by) * T(by); }
template <class T> constexpr T reg(T value) { return value; }
}  // namespace tapa
