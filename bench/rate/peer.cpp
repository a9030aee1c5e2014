#include "peer.h"
#include <emmintrin.h>

static bool refused(uint32_t count, uint32_t size) { return size == 0 || size < count; }

uint32_t peer_remainder(uint32_t count, uint32_t size, uint32_t *rate) {
  if (refused(count, size)) return 11;
  uint64_t a = (uint64_t)count * 1000, whole = a / size;
  *rate = (uint32_t)(whole + (size < 2 * (a % size) + whole % 2));
  return 0;
}

uint32_t peer_cases(uint32_t count, uint32_t size, uint32_t *rate) {
  if (refused(count, size)) return 11;
  uint64_t a = (uint64_t)count * 1000, whole = a / size, twice = a % size * 2;
  if (twice > size) whole++;
  else if (twice == size) whole += whole & 1;
  *rate = (uint32_t)whole;
  return 0;
}

// A quotient that is no exact half is at least 1 / (2 * size), so above 2^-34, away from one; that of doubles below 1,024 is off by 2^-44 at
// most. The processor's own conversion rounds to even unless it is told otherwise.
uint32_t peer_floating(uint32_t count, uint32_t size, uint32_t *rate) {
  if (refused(count, size)) return 11;
  *rate = (uint32_t)_mm_cvtsd_si32(_mm_set_sd(count * 1000.0 / size));
  return 0;
}

uint32_t peer_down(uint32_t count, uint32_t size, uint32_t *rate) {
  if (refused(count, size)) return 11;
  *rate = (uint32_t)((uint64_t)count * 1000 / size);
  return 0;
}
