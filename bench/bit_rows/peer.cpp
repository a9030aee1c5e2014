// The same algorithms in C++, and rank as the plain loop over words.
#include "peer.h"
#include <string.h>

namespace {
typedef uint8_t u8;
typedef uint64_t u64;

inline u64 word(const u8 *p) { u64 x; memcpy(&x, p, 8); return x; }
inline size_t number(const u8 *p) { uint32_t x; memcpy(&x, p, 4); return x; }
inline size_t ones(u64 x) { return (size_t)__builtin_popcountll(x); }

// From the sample before place i: whole words, whole bytes, the last bits.
inline size_t from_sample(const u8 *samples, const u8 *row, size_t i) {
  if (i == 0) return 0;
  size_t t = (i - 1) / 512, k = 64 * t, c = number(samples + 4 * t);
  for (; k + 8 <= i / 8; k += 8) c += ones(word(row + k));
  for (; k < i / 8; k++) c += ones(row[k]);
  if (i % 8) c += ones(row[k] & ((1u << i % 8) - 1));
  return c;
}

inline size_t select(const u8 *samples, const u8 *row, size_t n, int v, size_t j) {
  if (j == 0 || n == 0) return n;
  size_t lo = 0, end = (n + 7) / 8;
  for (size_t len = (n + 511) / 512; len > 1;) {
    size_t half = len / 2, c = number(samples + 4 * (lo + half));
    lo += half * ((v ? c : 512 * (lo + half) - c) < j);
    len -= half;
  }
  size_t c = number(samples + 4 * lo), k = 64 * lo;
  if (!v) c = 512 * lo - c;
  for (; k + 8 <= end; k += 8) {
    size_t here = ones(word(row + k));
    if (!v) here = 64 - here;
    if (c + here >= j) break;
    c += here;
  }
  if (k + 8 <= end) {
    u64 x = word(row + k);
    size_t i = 8 * k;
    for (size_t w = 32; w; w /= 2) {
      size_t here = ones(x & (((u64)1 << w) - 1));
      if (!v) here = w - here;
      size_t behind = c + here < j;
      x >>= w * behind;
      i += w * behind;
      c += here * behind;
    }
    for (; i < n; i++)
      if ((row[i / 8] >> i % 8 & 1) == v && ++c == j) return i;
    return n;
  }
  for (; k < end; k++) {
    size_t here = ones(row[k]);
    if (!v) here = 8 - here;
    if (c + here >= j) break;
    c += here;
  }
  for (size_t i = 8 * k; i < n; i++)
    if ((row[i / 8] >> i % 8 & 1) == v && ++c == j) return i;
  return n;
}
}

extern "C" {
size_t peer_rank1_loop(const u8 *samples, size_t, const u8 *row, size_t row_len, size_t, size_t i) {
  size_t t = i / 512, w = i % 512 / 64;
  if (64 * t + 64 > row_len) return from_sample(samples, row, i);
  size_t c = number(samples + 4 * t);
  for (size_t k = 0; k < w; k++) c += ones(word(row + 64 * t + 8 * k));
  return c + ones(word(row + 64 * t + 8 * w) & (((u64)1 << i % 64) - 1));
}

size_t peer_rank1(const u8 *samples, size_t, const u8 *row, size_t, size_t n, size_t i) {
  size_t t = i / 512;
  if (512 * t + 512 >= n) return from_sample(samples, row, i);
  size_t h = i / 256 % 2, w = i / 64 % 4, k = 64 * t + 32 * h;
  size_t a = 0;
  for (size_t x = 0; x < 4; x++) a += ones(word(row + k + 8 * x) & ((u64)0 - (1 - (4 + 4 * h - w + x) / 4 % 2)));
  size_t part = ones(word(row + k + 8 * w) & (((u64)1 << i % 64) - 1));
  return number(samples + 4 * (t + h)) + part + a - 2 * h * a;
}

size_t peer_select1(const u8 *samples, size_t, const u8 *row, size_t, size_t n, size_t j) { return select(samples, row, n, 1, j); }
size_t peer_select0(const u8 *samples, size_t, const u8 *row, size_t, size_t n, size_t j) { return select(samples, row, n, 0, j); }

bool peer_samples_right(const u8 *samples, size_t, const u8 *row, size_t, size_t n) {
  size_t m = (n + 511) / 512, c = 0;
  for (size_t t = 0; t < m; t++) {
    if (number(samples + 4 * t) != c) return false;
    if (512 * t + 512 <= n)
      for (size_t k = 0; k < 8; k++) c += ones(word(row + 64 * t + 8 * k));
  }
  return true;
}
}
