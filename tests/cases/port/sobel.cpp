// An edge filter on an image of RGB pixels: a struct as pixel, luma by weights, a window class by a template, saturation.
#include <algorithm>
#include <cstdint>
#include <cstdlib>

#include <tapa.h>

#define WIDTH 8
#define IDX(r, c) ((r) * WIDTH + (c))

struct Rgb {
  uint8_t r, g, b;
};

template <typename T, int kRows, int kCols>
class LineBuffer {
 public:
  void Insert(T value, int col) {
    for (int r = 0; r < kRows - 1; ++r) rows_[r][col] = rows_[r + 1][col];
    rows_[kRows - 1][col] = value;
  }
  T Get(int r, int c) const { return rows_[r][c]; }

 private:
  T rows_[kRows][kCols];
};

inline uint8_t Luma(const Rgb& p) { return (77 * p.r + 150 * p.g + 29 * p.b) >> 8; }

inline uint8_t Saturate(int x) {
  if (x < 0) return 0;
  return x > 255 ? 255 : static_cast<uint8_t>(x);
}

void ReadRgb(tapa::mmap<const Rgb> mem, int height, tapa::ostream<Rgb>& out) {
  for (int i = 0; i < height * WIDTH; ++i) {
    out << mem[i];
  }
}

void Grey(tapa::istream<Rgb>& in, int height, tapa::ostream<uint8_t>& out) {
  for (int i = 0; i < height * WIDTH; ++i) out << Luma(in.read());
}

void Sobel(tapa::istream<uint8_t>& in, int height, tapa::ostream<uint8_t>& out) {
  LineBuffer<uint8_t, 3, WIDTH> lines;
  const int8_t gx[3][3] = {{-1, 0, 1}, {-2, 0, 2}, {-1, 0, 1}};
  const int8_t gy[3][3] = {{-1, -2, -1}, {0, 0, 0}, {1, 2, 1}};
  for (int r = 0; r < height; ++r) {
    for (int c = 0; c < WIDTH; ++c) {
#pragma HLS pipeline II = 1
      lines.Insert(in.read(), c);
      if (r < 2 || c < 2) {
        out << uint8_t(0);
        continue;
      }
      int x = 0, y = 0;
      for (int i = 0; i < 3; ++i) {
        for (int j = 0; j < 3; ++j) {
          const int v = lines.Get(i, c - 2 + j);
          x += gx[i][j] * v;
          y += gy[i][j] * v;
        }
      }
      out << Saturate(std::abs(x) + std::abs(y));
    }
  }
}

void WriteGrey(tapa::istream<uint8_t>& in, int height, tapa::mmap<uint8_t> mem) {
  for (int r = 0; r < height; ++r)
    for (int c = 0; c < WIDTH; ++c) mem[IDX(r, c)] = in.read();
}

void SobelTop(tapa::mmap<const Rgb> image, tapa::mmap<uint8_t> edges, int height) {
  tapa::stream<Rgb, 4> pixels("pixels");
  tapa::stream<uint8_t, 4> grey("grey"), out("out");
  tapa::task().invoke(ReadRgb, image, height, pixels).invoke(Grey, pixels, height, grey).invoke(Sobel, grey, height, out).invoke(WriteGrey, out, height, edges);
}
