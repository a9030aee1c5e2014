// Places in the peer's rows: that of the i-th one or zero, and those where the documents of a range first stand.
// TIGHT chooses how:
//   0  a place is looked for from the samples; the entries of a range go down the tree one by one
//   1  in a short range a place is looked for in one word; eight entries go down side by side
#pragma once
#include "peer.h"

namespace {
// The place of the one of rank i, from 0, in a word: its byte by sums over bytes, then bit by bit.
INLINE u32 select_in_word(u64 x, u32 i) {
  u64 s = x - (x >> 1 & TWOS);
  s = (s & FOURS) + (s >> 2 & FOURS);
  s = ((s + (s >> 4)) & EIGHTS) * 0x0101010101010101;
  u64 reached = ((s | 0x8080808080808080) - 0x0101010101010101 * (i + 1)) & 0x8080808080808080;
  u32 shift = (u32)__builtin_ctzll(reached) - 7;
  i -= (u32)(s << 8 >> shift) & 255;
  x = x >> shift & 255;
  while (i--) x &= x - 1;
  return shift + (u32)__builtin_ctzll(x);
}

// The place of the one (or the zero) of rank i, from 0, which lies in one of the blocks lo to hi.
template <int ONE> INLINE u32 select_bit(const Row &r, u32 i, u32 lo, u32 hi) {
  for (u32 size = hi - lo + 1; size > 1;) {
    u32 step = size / 2, c = number(r.samples + 4 * (lo + step));
    if (!ONE) c = 512 * (lo + step) - c;
    lo = c <= i ? lo + step : lo;
    size -= step;
  }
  u32 c = number(r.samples + 4 * lo);
  i -= ONE ? c : 512 * lo - c;
  for (u32 k = 64 * lo;; k += 8) {
    u64 x = word_of(r, k);
    if (!ONE) x = ~x;
    u32 here = ones(x);
    if (i < here) return 8 * k + select_in_word(x, i);
    i -= here;
  }
}

// Of the ones (or the zeros) from lo to hi: the place of that of rank i, from 0, where so many ones are before lo.
INLINE u32 select_in_range(const Row &r, u32 one, u32 lo, u32 hi, u32 before, u32 i) {
#if TIGHT
  const u8 *p = r.bits + lo / 8;
  if (hi - lo <= 56 && p + 8 <= r.end) return lo + select_in_word((word(p) >> lo % 8) ^ ((u64)one - 1), i);
#endif
  u32 first = lo / 512, last = (hi - 1) / 512;
  return one ? select_bit<1>(r, before + i, first, last) : select_bit<0>(r, lo - before + i, first, last);
}

// Where d, with so many entries from a to b, first stands there: down to the node in which the range has no other document, there at offset 0, and up
// again by places. Where the other half has none of the range's entries the offset stays.
INLINE u32 first_place(const Levels &t, u32 d, u32 count, u32 a, u32 b) {
  struct { u32 lo, hi, ones; } way[12];
  Span s = {0, a, b, t.n};
  u32 j = 0, size = count, offset = 0;
  auto one = [&] { return d >> (t.height - 1 - j) & 1; };
  for (; s.hi - s.lo != count; j++) {
    Halves h = halve(t, j, s);
    way[j] = {s.lo, s.hi, h.ones};
    s = half(h, one());
  }
  while (j-- > 0) {
    u32 lo = way[j].lo, hi = way[j].hi;
    if (hi - lo == size) continue;
    size = hi - lo;
    offset = select_in_range(row_of(t, j), one(), lo, hi, way[j].ones, offset) - lo;
  }
  return a + offset;
}

// So many entries side by side, the last before place i first: each goes down from the root and takes the last place that is left in each node of its
// way. Nodes have the numbers of a heap.
template <u32 SIZE> INLINE void put_firsts(const Levels &t, u32 i, u16 *left, u16 *firsts) {
  u32 nodes[SIZE];
#pragma GCC unroll 8
  for (u32 k = 0; k < SIZE; k++) nodes[k] = 1;
  for (u32 j = 0; j < t.height; j++) {
    Row r = row_of(t, j);
#pragma GCC unroll 8
    for (u32 k = 0; k < SIZE; k++) nodes[k] = 2 * nodes[k] + bit(r, --left[nodes[k]]);
  }
#pragma GCC unroll 8
  for (u32 k = 0; k < SIZE; k++) firsts[nodes[k] - (1u << t.height)] = (u16)(i - 1 - k);
}

// Where each document of the range a to b first stands there: from the range's last entry to its first, so that the last place written for a document
// is its first. `left` has where the range ends in each inner node, and is used up.
INLINE void find_firsts(const Levels &t, u32 a, u32 b, u16 *left, u16 *firsts) {
#if TIGHT
  for (; b - a >= 8; b -= 8) put_firsts<8>(t, b, left, firsts);
#endif
  for (; b > a; b--) put_firsts<1>(t, b, left, firsts);
}
}
