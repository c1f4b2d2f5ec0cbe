// Points in a circle by hand: a shift register for each generator, whose seed is a constant of its invoke.
#include <tapa.h>

const int kGenerators = 3;

void Generate(uint32_t seed, int n, tapa::ostream<uint32_t>& points) {
  uint32_t state = seed;
  for (int k = 0; k < n; ++k) {
    for (int i = 0; i < 10; ++i) { state = state >> 1 | ((state ^ state >> 1 ^ state >> 21 ^ state >> 31) & 1) << 31; }
    uint32_t x = state & 1023;
    for (int i = 0; i < 10; ++i) { state = state >> 1 | ((state ^ state >> 1 ^ state >> 21 ^ state >> 31) & 1) << 31; }
    points << (x << 16 | (state & 1023));
  }
  points.close();
}

void Count(tapa::istream<uint32_t>& points, tapa::ostream<int>& hits) {
  int inside = 0;
  TAPA_WHILE_NOT_EOT(points) {
    uint32_t p = points.read();
    if ((p >> 16) * (p >> 16) + (p & 1023) * (p & 1023) < 1048576) { inside++; }
  }
  points.open();
  hits << inside;
}

void Sum(tapa::istream<int>& hits0, tapa::istream<int>& hits1, tapa::istream<int>& hits2, tapa::mmap<int> out) {
  int first = hits0.read();
  out[0] = first;
  int second = hits1.read();
  out[1] = second;
  int third = hits2.read();
  out[2] = third;
  out[kGenerators] = first + second + third;
}

void MonteCarlo(tapa::mmap<int> out, int n) {
  tapa::streams<uint32_t, kGenerators, 4> points("points");
  tapa::streams<int, kGenerators> hits("hits");
  tapa::task()
      .invoke(Generate, 3735928559u, n, points[0])
      .invoke(Generate, 12345u, n, points[1])
      .invoke(Generate, 77u, n, points[2])
      .invoke<tapa::join, kGenerators>(Count, points, hits)
      .invoke(Sum, hits[0], hits[1], hits[2], out);
}
