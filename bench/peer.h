// What the operations of the peer share: bits and rows, rank, the halves of a node, and a queue.
// PEER is the prefix of its functions; TIGHT chooses how bits are counted and halves are chosen:
//   0  rank is a loop over words from the sample, and halves are chosen by a branch
//   1  rank counts words under masks without a branch, from the nearer sample; a short range is counted in one word; halves are chosen by masks
// With -mpopcnt each of them counts by the instruction.
#pragma once
#include "abi.h"
#include "terms.h"
#include <string.h>

namespace {
typedef uint8_t u8;
typedef uint16_t u16;
typedef uint32_t u32;
typedef uint64_t u64;
#define INLINE static inline __attribute__((always_inline))

INLINE u64 word(const u8 *p) { u64 x; memcpy(&x, p, 8); return x; }
INLINE u32 number(const u8 *p) { u32 x; memcpy(&x, p, 4); return x; }
INLINE void put_number(u8 *p, size_t x) { u32 y = (u32)x; memcpy(p, &y, 4); }

const u64 TWOS = 0x5555555555555555, FOURS = 0x3333333333333333, EIGHTS = 0x0f0f0f0f0f0f0f0f;
#if TIGHT && !defined(__POPCNT__)
const u64 SIXTEENS = 0x00ff00ff00ff00ff;
#endif

// The ones of a word. Without the instruction a compiler may call a function for its builtin.
INLINE u32 ones(u64 x) {
#ifdef __POPCNT__
  return (u32)__builtin_popcountll(x);
#else
  x -= x >> 1 & TWOS;
  x = (x & FOURS) + (x >> 2 & FOURS);
  return (u32)(((x + (x >> 4)) & EIGHTS) * 0x0101010101010101 >> 56);
#endif
}

struct Levels {
  const u8 *bytes, *end;
  u32 n, height, blocks, row_bytes;
  size_t samples, rows;
  INLINE Levels of(const u8 *bytes, size_t len, size_t n, size_t height, size_t samples, size_t rows) {
    return {bytes, bytes + len, (u32)n, (u32)height, (u32)((n + 511) / 512), (u32)((n + 7) / 8), samples, rows};
  }
};

struct Row {
  const u8 *bits, *samples, *end;
  u32 blocks, row_bytes;
};

INLINE Row row_of(const Levels &t, u32 j) {
  return {t.bytes + t.rows + (size_t)j * t.row_bytes, t.bytes + t.samples + (size_t)j * 4 * t.blocks, t.end, t.blocks, t.row_bytes};
}

INLINE u32 bit(const Row &r, u32 p) { return r.bits[p / 8] >> p % 8 & 1; }

// The word at byte k of a row, zeros behind the row's end.
INLINE u64 word_of(const Row &r, u32 k) {
  if (k + 8 <= r.row_bytes) return word(r.bits + k);
  u64 x = 0;
  for (u32 i = k; i < r.row_bytes; i++) x |= (u64)r.bits[i] << 8 * (i - k);
  return x;
}

// The ones before place p: from the sample, word by word.
INLINE u32 rank_by_words(const Row &r, u32 p) {
  if (p == 0) return 0;
  u32 t = (p - 1) / 512, k = 64 * t, c = number(r.samples + 4 * t);
  for (; k + 8 <= p / 8; k += 8) c += ones(word(r.bits + k));
  return p % 64 ? c + ones(word_of(r, k) & (((u64)1 << p % 64) - 1)) : c;
}

#if TIGHT
// The ones of four words. Without the instruction: three words as ones and twos, then sums of growing width.
INLINE u32 ones4(u64 a, u64 b, u64 c, u64 d) {
#ifdef __POPCNT__
  return ones(a) + ones(b) + (ones(c) + ones(d));
#else
  u64 x = a ^ b, twos = (a & b) | (x & c), single = x ^ c;
  single -= single >> 1 & TWOS;
  d -= d >> 1 & TWOS;
  twos -= twos >> 1 & TWOS;
  single = (single & FOURS) + (single >> 2 & FOURS) + (d & FOURS) + (d >> 2 & FOURS);
  twos = (twos & FOURS) + (twos >> 2 & FOURS);
  single = (single & EIGHTS) + (single >> 4 & EIGHTS) + 2 * ((twos + (twos >> 4)) & EIGHTS);
  single = (single & SIXTEENS) + (single >> 8 & SIXTEENS);
  return (u32)(single * 0x0001000100010001 >> 48);
#endif
}

// Masks of the words before the one with the place, and of that word, slid by its number.
alignas(64) const u64 BEFORE[14] = {~0ull, ~0ull, ~0ull, ~0ull, ~0ull, ~0ull, ~0ull};
#ifndef __POPCNT__
alignas(64) const u64 AT[7] = {0, 0, 0, ~0ull};
#endif

INLINE u32 rank1(const Row &r, u32 p) {
  u32 t = p / 512, w = p / 64 % 8;
  u64 part = ((u64)1 << p % 64) - 1;
  const u8 *base = r.bits + 64 * (size_t)t;
#ifdef __POPCNT__
  if (__builtin_expect(64 * t + 64 > r.row_bytes, 0)) return rank_by_words(r, p);
  const u64 *m = BEFORE + 7 - w;
  u32 low = ones4(word(base) & m[0], word(base + 8) & m[1], word(base + 16) & m[2], word(base + 24) & m[3]);
  u32 high = ones4(word(base + 32) & m[4], word(base + 40) & m[5], word(base + 48) & m[6], word(base + 8 * w) & part);
  return number(r.samples + 4 * t) + low + high;
#else
  if (__builtin_expect(t + 1 >= r.blocks, 0)) return rank_by_words(r, p);
  // In the second half of a block the ones from the place up to the next sample are taken off.
  u32 half = w / 4, i = w % 4;
  u64 off = (u64)0 - half;
  base += 32 * half;
  const u64 *m = BEFORE + 7 - i, *e = AT + 3 - i;
  u32 c = ones4(word(base) & ((m[0] | (part & e[0])) ^ off), word(base + 8) & ((m[1] | (part & e[1])) ^ off),
                word(base + 16) & ((m[2] | (part & e[2])) ^ off), word(base + 24) & ((m[3] | (part & e[3])) ^ off));
  return number(r.samples + 4 * (t + half)) + ((c ^ (u32)off) - (u32)off);
#endif
}

// The ones before y, where c are before x: a short range fits a word that starts at the byte of x.
INLINE u32 rank1_from(const Row &r, u32 x, u32 c, u32 y) {
  u32 size = y - x;
  const u8 *p = r.bits + x / 8;
  if (size <= 56 && p + 8 <= r.end) return c + ones(word(p) >> x % 8 & (((u64)1 << size) - 1));
  return rank1(r, y);
}

// The ones from x to y.
INLINE u32 ones_in(const Row &r, u32 x, u32 y) {
  u32 size = y - x;
  const u8 *p = r.bits + x / 8;
  if (size <= 56 && p + 8 <= r.end) return ones(word(p) >> x % 8 & (((u64)1 << size) - 1));
  return rank1(r, y) - rank1(r, x);
}

INLINE u32 pick(u32 one, u32 x, u32 y) { return y ^ ((x ^ y) & (0u - one)); }
#else
INLINE u32 rank1(const Row &r, u32 p) { return rank_by_words(r, p); }
INLINE u32 rank1_from(const Row &r, u32, u32, u32 y) { return rank1(r, y); }
INLINE u32 ones_in(const Row &r, u32 x, u32 y) { return rank1(r, y) - rank1(r, x); }
INLINE u32 pick(u32 one, u32 x, u32 y) { return one ? x : y; }
#endif

// A node's bounds in its level, with a range in it.
struct Span { u32 start, lo, hi, end; };
// Both halves, and the row's ones before the range.
struct Halves { Span low, high; u32 ones; };

INLINE Halves halve(const Levels &t, u32 j, const Span &s) {
  Row r = row_of(t, j);
  u32 before = rank1(r, s.start), lo = rank1_from(r, s.start, before, s.lo);
  u32 hi = rank1_from(r, s.lo, lo, s.hi), all = rank1_from(r, s.hi, hi, s.end);
  u32 middle = s.end - (all - before), low = lo - before, high = hi - before;
  return {{s.start, s.lo - low, s.hi - high, middle}, {middle, middle + low, middle + high, s.end}, lo};
}

INLINE Span half(const Halves &h, u32 one) {
  return {pick(one, h.high.start, h.low.start), pick(one, h.high.lo, h.low.lo), pick(one, h.high.hi, h.low.hi), pick(one, h.high.end, h.low.end)};
}

// Where the halves of a node meet, and its ones before a place.
struct Cut { u32 middle, ones; };

// Of place p of a node of level j, which spans start to end.
INLINE Cut cut(const Levels &t, u32 j, u32 start, u32 end, u32 p) {
  Row r = row_of(t, j);
  u32 before = rank1(r, start), at = rank1_from(r, start, before, p), all = rank1_from(r, p, at, end);
  return {end - (all - before), at - before};
}

// From such a place to its place in the half that a bit leads to.
INLINE void step(const Levels &t, u32 j, u32 one, u32 &start, u32 &end, u32 &p) {
  Cut c = cut(t, j, start, end, p);
  p = pick(one, c.middle + c.ones, p - c.ones);
  start = pick(one, c.middle, start);
  end = pick(one, end, c.middle);
}

// Of such a place: how many entries of that half are before it. Ones or zeros of the row are enough.
INLINE u32 count_half(const Levels &t, u32 j, u32 one, u32 start, u32 p) {
  u32 high = ones_in(row_of(t, j), start, p);
  return pick(one, high, p - start - high);
}

// Follows place p of the node q of level j, which spans start to end, to its half.
INLINE void follow(const Levels &t, u32 j, u32 &q, u32 &start, u32 &end, u32 &p) {
  u32 one = bit(row_of(t, j), p);
  step(t, j, one, start, end, p);
  q = 2 * q + one;
}

// A queue of waiting nodes as a binary heap, the largest key first.
template <class Waiting> INLINE void push(Waiting *queue, u32 &size, Waiting w) {
  u32 i = size++;
  while (i) {
    u32 up = (i - 1) / 2;
    if (queue[up].key >= w.key) break;
    queue[i] = queue[up];
    i = up;
  }
  queue[i] = w;
}

template <class Waiting> INLINE void replace_top(Waiting *queue, u32 size, Waiting w) {
  u32 i = 0;
  for (;;) {
    u32 c = 2 * i + 1;
    if (c >= size) break;
    u32 other = c + 1 < size ? c + 1 : c;
    c = queue[other].key > queue[c].key ? other : c;
    if (queue[c].key <= w.key) break;
    queue[i] = queue[c];
    i = c;
  }
  queue[i] = w;
}
}

#define F(f) JOIN(PEER, f)
#define TREE Levels::of(bytes, len, n, height, samples, rows)
