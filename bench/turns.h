// Two that are timed in turns, for the small benchmarks: medians, and the median of the rounds' ratios.
#pragma once
#include "timing.h"
#include <stddef.h>
#include <stdint.h>

// Random numbers of 32 bits, the same in each run.
inline uint32_t next() {
  static uint64_t seed = 1;
  seed = seed * 6364136223846793005u + 1442695040888963407u;
  return (uint32_t)(seed >> 32);
}

struct Turns { double ours, theirs, ratio; };

// Each call answers its time.
template <class Ours, class Theirs> Turns in_turns(size_t rounds, Ours ours, Theirs theirs) {
  std::vector<double> a, b, ratio;
  for (size_t k = 0; k < rounds; k++) {
    double x, y;
    if (k % 2) { x = ours(); y = theirs(); } else { y = theirs(); x = ours(); }
    a.push_back(x); b.push_back(y); ratio.push_back(x / y);
  }
  return {median(a), median(b), median(ratio)};
}
