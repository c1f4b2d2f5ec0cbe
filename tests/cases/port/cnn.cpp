// Two layers of a convolutional network on one image: a convolution of 3 by 3 with line buffers, a pooling of 2 by 2, and a dense layer; weights as tables.
#include <algorithm>
#include <cstdint>

#include <tapa.h>

namespace cnn {

constexpr int kHeight = 8;
constexpr int kWidth = 8;
constexpr int kKernel = 3;
constexpr int kChannels = 2;
constexpr int kPool = 2;
constexpr int kPooled = (kHeight - kKernel + 1) / kPool;
constexpr int kClasses = 3;

using pixel_t = uint8_t;
using acc_t = int32_t;

const int8_t kWeights[kChannels][kKernel][kKernel] = {
    {{1, 0, -1}, {2, 0, -2}, {1, 0, -1}},
    {{-1, -2, -1}, {0, 0, 0}, {1, 2, 1}},
};
const int16_t kBias[kChannels] = {3, -4};

template <typename T>
inline T Relu(T x) {
  return std::max(x, T(0));
}

// The last rows of an image, and the window under the kernel.
template <typename T, int rows, int width>
struct Window {
  T lines[rows - 1][width];
  T cells[rows][rows];

  void Push(T value, int column) {
    for (int r = 0; r < rows; ++r) {
#pragma HLS unroll
      for (int c = 0; c + 1 < rows; ++c) cells[r][c] = cells[r][c + 1];
    }
    for (int r = 0; r + 1 < rows; ++r) cells[r][rows - 1] = lines[r][column];
    cells[rows - 1][rows - 1] = value;
    for (int r = 0; r + 2 < rows; ++r) lines[r][column] = lines[r + 1][column];
    lines[rows - 2][column] = value;
  }
  T At(int r, int c) const { return cells[r][c]; }
};

}  // namespace cnn

using namespace cnn;

void LoadImage(tapa::mmap<const pixel_t> image, tapa::ostreams<pixel_t, kChannels>& out) {
  for (int i = 0; i < kHeight * kWidth; ++i) {
#pragma HLS pipeline II = 1
    const pixel_t value = image[i];
    for (int ch = 0; ch < kChannels; ++ch) {
#pragma HLS unroll
      out[ch].write(value);
    }
  }
}

template <int channel>
void Convolve(tapa::istream<pixel_t>& in, tapa::ostream<acc_t>& out) {
  Window<pixel_t, kKernel, kWidth> window;
  for (int r = 0; r < kHeight; ++r) {
    for (int c = 0; c < kWidth; ++c) {
      window.Push(in.read(), c);
      if (r < kKernel - 1 || c < kKernel - 1) continue;
      acc_t acc = kBias[channel];
      for (int kr = 0; kr < kKernel; ++kr) {
        for (int kc = 0; kc < kKernel; ++kc) {
          acc += kWeights[channel][kr][kc] * window.At(kr, kc);
        }
      }
      out.write(Relu(acc));
    }
  }
}

void Pool(tapa::istream<acc_t>& in, tapa::ostream<acc_t>& out) {
  acc_t best[kPooled];
  for (int r = 0; r < kPooled * kPool; ++r) {
    for (int c = 0; c < kPooled * kPool; ++c) {
      const acc_t x = in.read();
      acc_t& cell = best[c / kPool];
      cell = (r % kPool == 0 && c % kPool == 0) ? x : std::max(cell, x);
      if (r % kPool == kPool - 1 && c % kPool == kPool - 1) out << cell;
    }
  }
}

void Dense(tapa::mmap<const int16_t> weights, tapa::istreams<acc_t, kChannels>& in, tapa::mmap<int64_t> scores) {
  int64_t acc[kClasses] = {0};
  int at = 0;
  for (int i = 0; i < kPooled * kPooled; ++i) {
    for (int ch = 0; ch < kChannels; ++ch) {
      const acc_t x = in[ch].read();
      for (int k = 0; k < kClasses; ++k) acc[k] += static_cast<int64_t>(x) * weights[at++];
    }
  }
  int best = 0;
  for (int k = 0; k < kClasses; ++k) {
    scores[k] = acc[k];
    if (acc[k] > acc[best]) best = k;
  }
  scores[kClasses] = best;
}

void Cnn(tapa::mmap<const pixel_t> image, tapa::mmap<const int16_t> weights, tapa::mmap<int64_t> scores) {
  tapa::streams<pixel_t, kChannels, kWidth> pixels("pixels");
  tapa::streams<acc_t, kChannels, 4> convolved("convolved");
  tapa::streams<acc_t, kChannels, 4> pooled("pooled");
  tapa::task()
      .invoke(LoadImage, image, pixels)
      .invoke(Convolve<0>, pixels[0], convolved[0])
      .invoke(Convolve<1>, pixels[1], convolved[1])
      .invoke<tapa::join, kChannels>(Pool, convolved, pooled)
      .invoke(Dense, weights, pooled, scores);
}
