// Weighted top-k of the peer: documents with an entry under some of the terms, by the sum of weight * count, each different term once, the
// rarest first.
// A node waits as its score, start and depth alone. Where the terms' ranges lie in it is found again from a path of frames, both halves of every
// level down to the halves of the node opened last: only what lies below the deepest node in common is walked.
#include "rarest.h"

namespace {
// A node's bounds in its level, and the ranges and weights of those terms that have an entry in it.
struct Frame { u32 start, end, size, lo[8], hi[8], weight[8]; };

// From the root to the halves of the node opened last, which starts there: for each level the low half and the high half.
struct Path {
  u32 start;
  Frame frames[13][2];
};

// How many different documents the entries a to b have. A range of one entry is not followed, in the last row ones and zeros are enough;
// high halves are kept on a stack.
INLINE u32 distinct(const Levels &t, u32 a, u32 b) {
  struct { Span s; u32 j; } stack[12];
  Span s = {0, a, b, t.n};
  u32 depth = 0, j = 0, found = 0;
  if (t.height == 0) return a != b;
  for (;;) {
    while (s.hi - s.lo > 1 && j + 1 < t.height) {
      Halves h = halve(t, j++, s);
      s = h.low;
      if (h.high.hi - h.high.lo > 1) stack[depth++] = {h.high, j};
      else found += h.high.lo != h.high.hi;
    }
    u32 count = s.hi - s.lo, high = count > 1 ? ones_in(row_of(t, j), s.lo, s.hi) : 0;
    found += (high != 0) + (high != count);
    if (depth == 0) return found;
    depth--;
    s = stack[depth].s;
    j = stack[depth].j;
  }
}

// The largest g with 2^g * df^4 at most N^4, by doubling: both stay below 2^49.
INLINE u32 weight_of(u64 documents, u64 df) {
  u64 all = documents * documents * documents * documents, some = df * df * df * df;
  u32 g = 0;
  for (; df && 2 * some <= all; some *= 2) g++;
  return g;
}

// Adds a range to a frame where it is not empty.
INLINE void add(Frame &f, u32 lo, u32 hi, u32 weight) {
  f.lo[f.size] = lo;
  f.hi[f.size] = hi;
  f.weight[f.size] = weight;
  f.size += lo != hi;
}

INLINE void put_root(const Levels &t, u32 documents, u32 terms, const u32 *chosen, u32 size, Frame &root) {
  u32 order[8];
  size = put_rarest_first(t, terms, chosen, size, order);
  root.start = root.size = 0;
  root.end = t.n;
  for (u32 i = 0; i < size; i++) {
    u32 lo = number(t.bytes + 40 + 8 * order[i]), hi = lo + number(t.bytes + 44 + 8 * order[i]);
    add(root, lo, hi, weight_of(documents, distinct(t, lo, hi)));
  }
}

// The halves of a node of level j.
INLINE void open_frame(const Levels &t, u32 j, const Frame &f, Frame *halves) {
  Row r = row_of(t, j);
  Frame &low = halves[0], &high = halves[1];
  u32 before = rank1(r, f.start), middle = f.end - (rank1_from(r, f.start, before, f.end) - before);
  low.start = f.start;
  low.end = high.start = middle;
  high.end = f.end;
  low.size = high.size = 0;
  for (u32 i = 0; i < f.size; i++) {
    u32 lo = rank1_from(r, f.start, before, f.lo[i]), hi = rank1_from(r, f.lo[i], lo, f.hi[i]);
    lo -= before;
    hi -= before;
    add(low, f.lo[i] - lo, f.hi[i] - hi, f.weight[i]);
    add(high, middle + lo, middle + hi, f.weight[i]);
  }
}

// To the halves of a node of level j. Both halves of the deepest node in common are in the path, and nothing that waits is below the path's last
// halves, which were not opened.
INLINE void go_to(const Levels &t, Path &p, u32 j, u32 start) {
  u32 apart = p.start ^ start, i = apart ? t.height - 31 + (u32)__builtin_clz(apart) : t.height;
  for (i = i < j ? i : j; i <= j; i++) open_frame(t, i, p.frames[i][start >> (t.height - i) & 1], p.frames[i + 1]);
  p.start = start;
}

// A waiting node: its score, start reversed and depth.
struct __attribute__((may_alias)) Waiting { u64 key; };

INLINE Waiting waiting(const Frame &f, u32 start, u32 depth) {
  u64 score = 0;
  for (u32 i = 0; i < f.size; i++) score += f.weight[i] * (f.hi[i] - f.lo[i]);
  return {score << 32 | (u64)(65535 - start) << 16 | depth};
}
}

extern "C" {
DECLARE_OPERATIONS

// As greedy: the best half of an opened node is kept in hand, and only changes places with the first of the queue where that is better.
u64 F(weighted)(LEVELS, size_t documents, size_t terms, const u32 *chosen, u32 size, u32 k, u32 allowance, u32 *answers, size_t, u32 *work, size_t) {
  Levels t = TREE;
  Path path;
  Waiting *queue = (Waiting *)work;
  u32 held = 0, openings = 0;
  u64 listed = 0, spent = 0;
  path.start = 0;
  put_root(t, (u32)documents, (u32)terms, chosen, size, path.frames[0][0]);
  Waiting best = waiting(path.frames[0][0], 0, 0);
  while (path.frames[0][0].size && k) {
    u32 start = 65535 - ((u32)(best.key >> 16) & 65535), j = (u32)best.key & 65535, half = 1u << t.height >> (j + 1);
    if (j == t.height) {
      answers[2 * listed] = start;
      answers[2 * listed + 1] = (u32)(best.key >> 32);
      if (++listed == k || held == 0) break;
      best = queue[0];
      if (--held) replace_top(queue, held, queue[held]);
      continue;
    }
    if (openings == allowance) {
      spent = (u64)1 << 63;
      break;
    }
    openings++;
    go_to(t, path, j, start);
    const Frame *f = path.frames[j + 1];
    Waiting low = waiting(f[0], start, j + 1), high = waiting(f[1], start + half, j + 1);
    if (f[0].size == 0) {
      best = high;
    } else if (f[1].size == 0) {
      best = low;
    } else {
      bool swap = high.key > low.key;
      Waiting other = swap ? low : high;
      best = swap ? high : low;
      if (held && queue[0].key > best.key) {
        Waiting first = queue[0];
        replace_top(queue, held, best);
        best = first;
      }
      push(queue, held, other);
    }
  }
  memset(work, 0, 16 * documents);
  return spent | (u64)openings << 32 | listed;
}
}
