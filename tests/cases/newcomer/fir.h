#ifndef FIR_H
#define FIR_H

#include <tapa.h>

#define TAPS 5
#define SHIFT 4

typedef int16_t sample_t;

inline int scaled(int x) { return x >> SHIFT; }

#endif  // FIR_H
