// Blur {"scalars": {"width": 32, "height": 48}, "cells": {"image": 1536, "out": 1536}}
// A stencil of three by three over an image of 8-bit pixels: two rows in arrays, nine pixels in locals, one weighted sum for each pixel, and the border as it is.
#include <tapa.h>

void Load(tapa::mmap<const uint8_t> image, int width, int height, tapa::ostream<uint8_t>& pixels) {
  for (int y = 0; y < height; ++y) {
    for (int x = 0; x < width; ++x) { pixels << image[y * width + x]; }
  }
}

void Window(tapa::istream<uint8_t>& pixels, int width, int height, tapa::ostream<uint8_t>& blurred) {
  uint8_t upper[64];
  uint8_t middle[64];
  for (int y = 0; y < height; ++y) {
    uint8_t a = 0; uint8_t b = 0; uint8_t c = 0;
    uint8_t d = 0; uint8_t e = 0; uint8_t f = 0;
    uint8_t g = 0; uint8_t h = 0; uint8_t i = 0;
    for (int x = 0; x < width; ++x) {
      a = b; b = c; c = upper[x];
      d = e; e = f; f = middle[x];
      g = h; h = i; i = pixels.read();
      upper[x] = f;
      middle[x] = i;
      if (y > 1 && x > 1) {
        unsigned sum = a + 2 * b + c + 2 * d + 4 * e + 2 * f + g + 2 * h + i;
        blurred << (uint8_t) ((sum + 8) / 16);
      } else {
        blurred << i;
      }
    }
  }
}

void Store(tapa::istream<uint8_t>& blurred, int width, int height, tapa::mmap<uint8_t> out) {
  for (int k = 0; k < width * height; ++k) { out[k] = blurred.read(); }
}

void Blur(tapa::mmap<const uint8_t> image, tapa::mmap<uint8_t> out, int width, int height) {
  tapa::stream<uint8_t, 16> pixels("pixels");
  tapa::stream<uint8_t, 16> blurred("blurred");
  tapa::task().invoke(Load, image, width, height, pixels).invoke(Window, pixels, width, height, blurred).invoke(Store, blurred, width, height, out);
}
