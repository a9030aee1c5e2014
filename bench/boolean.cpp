// Questions with and, or, not of the peer: for each different word a bitmap by a walk over its different documents, then question.h.
#include "peer.h"
#include "question.h"

namespace {
// The document of the entry at place p of node q of level j, which spans start to end. In the last row its bit is enough.
INLINE u32 document_at(const Levels &t, u32 j, u32 q, u32 start, u32 end, u32 p) {
  for (; j + 1 < t.height; j++) follow(t, j, q, start, end, p);
  return 2 * q + bit(row_of(t, j), p);
}

// The documents of the entries a to b. One entry is followed alone, in the last row ones and zeros are enough; high halves are kept on a stack.
INLINE void put_bitmap(const Levels &t, u32 a, u32 b, size_t documents, u64 *bitmap) {
  struct { Span s; u32 j, q; } stack[12];
  u32 depth = 0, j = 0, q = 0;
  Span s = {0, a, b, t.n};
  memset(bitmap, 0, (documents + 63) / 64 * 8);
  if (t.height == 0) bitmap[0] = a != b;
  if (t.height == 0 || a == b) return;
  for (;;) {
    while (s.hi - s.lo > 1 && j + 1 < t.height) {
      Halves h = halve(t, j++, s);
      q *= 2;
      if (h.low.lo == h.low.hi) {
        s = h.high;
        q++;
      } else {
        if (h.high.lo != h.high.hi) stack[depth++] = {h.high, j, q + 1};
        s = h.low;
      }
    }
    u32 count = s.hi - s.lo;
    if (count == 1) {
      u32 d = document_at(t, j, q, s.start, s.end, s.lo);
      bitmap[d / 64] |= (u64)1 << d % 64;
    } else {
      u32 high = ones_in(row_of(t, j), s.lo, s.hi);
      bitmap[q / 32] |= (u64)((high != count) + 2 * (high != 0)) << 2 * (q % 32);
    }
    if (depth == 0) return;
    depth--;
    s = stack[depth].s;
    j = stack[depth].j;
    q = stack[depth].q;
  }
}
}

extern "C" {
DECLARE_OPERATIONS

size_t F(boolean)(LEVELS, size_t documents, size_t, const uint16_t *question, size_t size, u32 *answers, size_t) {
  Levels t = TREE;
  Question q;
  u64 bitmaps[32][64];
  read_question(question, size, q);
  for (u32 i = 0; i < q.words; i++) {
    u32 lo = number(bytes + 40 + 8 * q.terms[i]);
    put_bitmap(t, lo, lo + number(bytes + 44 + 8 * q.terms[i]), documents, bitmaps[i]);
  }
  return put_matching(q, bitmaps, documents, answers);
}
}
