// The count of a set of documents of the peer: one descent for the whole set, which parts where two of its documents do.
#include "peer.h"

namespace {
// A place in a node of level j, which spans start to end, and those documents of the set that are under the node.
struct Part { u32 j, start, at, end; const u32 *set; u32 size; };

// Down to level j, by the bits of the first document.
INLINE void go_down(const Levels &t, Part &p, u32 j) {
  for (u32 d = p.set[0]; p.j < j; p.j++) step(t, p.j, d >> (t.height - 1 - p.j) & 1, p.start, p.end, p.at);
}

// The entries before the place in the node of level k that has all of the part's documents. In the row above it ones or zeros are enough.
INLINE u32 count_under(const Levels &t, Part &p, u32 k) {
  if (p.j == k) return p.at - p.start;
  go_down(t, p, k - 1);
  return count_half(t, p.j, p.set[0] >> (t.height - k) & 1, p.start, p.at);
}

// How high above the leaves the lowest node is that two documents are under.
INLINE u32 height_over(u32 x, u32 y) { return x == y ? 0 : 32 - (u32)__builtin_clz(x ^ y); }

// How many documents have 0 as this bit, which is the first in which they differ.
INLINE u32 front_size(const u32 *set, u32 bit) {
  u32 size = 1;
  while (!(set[size] >> bit & 1)) size++;
  return size;
}

// Halves the node of a part, which becomes the low half with so many documents; the high half has the others.
INLINE Part take_high(const Levels &t, Part &p, u32 front) {
  Cut c = cut(t, p.j++, p.start, p.end, p.at);
  Part high = {p.j, c.middle, c.middle + c.ones, p.end, p.set + front, p.size - front};
  p.at -= c.ones;
  p.end = c.middle;
  p.size = front;
  return high;
}
}

extern "C" {
DECLARE_OPERATIONS

// Down the low halves, the high ones kept on a stack. Where a node has no documents but those of the set, its entries count; nothing is asked of a
// node without an entry before the place.
size_t F(rank_set)(LEVELS, const u32 *set, size_t size, size_t place) {
  Levels t = TREE;
  Part stack[12], p = {0, 0, (u32)place, t.n, set, (u32)size};
  u32 depth = 0, count = 0;
  if (size == 0) return 0;
  for (;;) {
    while (p.start != p.at) {
      u32 height = height_over(p.set[0], p.set[p.size - 1]);
      if (p.size == 1u << height) {
        count += count_under(t, p, t.height - height);
        break;
      }
      go_down(t, p, t.height - height);
      stack[depth++] = take_high(t, p, front_size(p.set, height - 1));
    }
    if (depth == 0) return count;
    p = stack[--depth];
  }
}
}
