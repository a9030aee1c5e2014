// The clock, and what is taken of many times.
#pragma once
#include <algorithm>
#include <time.h>
#include <vector>

// In ns.
inline double now() {
  timespec t;
  clock_gettime(CLOCK_MONOTONIC, &t);
  return (double)t.tv_sec * 1e9 + (double)t.tv_nsec;
}

// What so large a part is below.
inline double at_part(std::vector<double> v, double part) {
  std::sort(v.begin(), v.end());
  return v[(size_t)(part * (double)(v.size() - 1))];
}

inline double median(const std::vector<double> &v) { return at_part(v, 0.5); }
