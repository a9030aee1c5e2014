// The order of a question's terms of the peer, as an operation by itself: the rarest first.
#include "rarest.h"

extern "C" {
DECLARE_OPERATIONS

size_t F(rarest_first)(LEVELS, size_t terms, const u32 *chosen, u32 size, u32 *order) { return put_rarest_first(TREE, (u32)terms, chosen, size, order); }
}
