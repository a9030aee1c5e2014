// The rate in C++, with the interface of the export: 0 or a refusal, and the answer in an out-parameter.
#pragma once
#include <stdint.h>

typedef uint32_t rate_fn(uint32_t count, uint32_t size, uint32_t *rate);

extern "C" {
rate_fn peer_remainder; // by quotient and remainder, as ours
rate_fn peer_cases;     // the same with a case for each of below, at and above a half
rate_fn peer_floating;  // by a division in floating point, which is exact enough, and its rounding to even
rate_fn peer_down;      // rounded down, as before M-105
}
