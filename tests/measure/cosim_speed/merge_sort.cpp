// Sort {"scalars": {"blocks": 6}, "cells": {"from": 384, "to": 384}}
// Blocks of 64 numbers, each sorted from the bottom up between two arrays, with a task that loads, one that sorts and one that checks the order and stores.
#include <tapa.h>

const int BLOCK = 64;

void Load(tapa::mmap<const int> from, int blocks, tapa::ostream<int>& unsorted) {
  for (int k = 0; k < blocks * BLOCK; ++k) { unsorted << from[k]; }
}

void MergeSort(tapa::istream<int>& unsorted, int blocks, tapa::ostream<int>& sorted) {
  int a[BLOCK];
  int b[BLOCK];
  for (int n = 0; n < blocks; ++n) {
    for (int k = 0; k < BLOCK; ++k) { a[k] = unsorted.read(); }
    for (int run = 1; run < BLOCK; run = run * 2) {
      for (int low = 0; low < BLOCK; low += 2 * run) {
        uint8_t i = low;
        uint8_t j = low + run;
        for (int k = low; k < low + 2 * run; ++k) {
          bool left = i < low + run && (j >= low + 2 * run || a[i] <= a[j]);
          if (left) { b[k] = a[i]; i = i + 1; } else { b[k] = a[j]; j = j + 1; }
        }
      }
      for (int k = 0; k < BLOCK; ++k) { a[k] = b[k]; }
    }
    for (int k = 0; k < BLOCK; ++k) { sorted << a[k]; }
  }
}

void Store(tapa::istream<int>& sorted, int blocks, tapa::mmap<int> to) {
  int64_t wrong = 0;
  for (int n = 0; n < blocks; ++n) {
    int last = -2147483647 - 1;
    for (int k = 0; k < BLOCK; ++k) {
      int x = sorted.read();
      if (x < last) { wrong = wrong + 1; }
      last = x;
      to[n * BLOCK + k] = wrong == 0 ? x : 0;
    }
  }
}

void Sort(tapa::mmap<const int> from, tapa::mmap<int> to, int blocks) {
  tapa::stream<int, 8> unsorted("unsorted");
  tapa::stream<int, 8> sorted("sorted");
  tapa::task().invoke(Load, from, blocks, unsorted).invoke(MergeSort, unsorted, blocks, sorted).invoke(Store, sorted, blocks, to);
}
