// The rate beside its peers, in rounds that take turns: medians, and the median of the rounds' ratios.
#include "../turns.h"
#include "masuvelior.h"
#include "peer.h"
#include <stdio.h>
#include <stdlib.h>

#ifdef BEFORE
extern "C" rate_fn before_masuvelior_per_mille;
#endif

namespace {
const size_t QUERIES = 1 << 14, ROUNDS = 401;
struct Pair { uint32_t count, size; };
typedef std::vector<Pair> Pairs;
uint32_t sink;

// Counts up to sizes of so many bits, one in four at a half or beside it.
Pairs drawn(uint32_t bits) {
  Pairs pairs(QUERIES);
  for (Pair &p : pairs) {
    uint32_t size = (next() >> (32 - bits)) | 1;
    p = {(uint32_t)(next() % ((uint64_t)size + 1)), size};
    uint32_t parts = size / 2000;
    if (parts && next() % 4 == 0) p = {(2 * (next() % 1000) + 1) * parts + next() % 3 - 1, 2000 * parts};
  }
  return pairs;
}

// Never copied into its callers, and ours through a pointer that the compiler cannot see through: each function is called in the same way.
rate_fn *volatile ours = masuvelior_per_mille;

double __attribute__((noinline)) timed(rate_fn *f, const Pairs &pairs) {
  double start = now();
  for (const Pair &p : pairs) {
    uint32_t rate = 0;
    sink += f(p.count, p.size, &rate) + rate;
  }
  return (now() - start) / pairs.size();
}

void verify(const char *name, rate_fn *f, const Pairs &pairs) {
  for (const Pair &p : pairs) {
    uint32_t x = 0, y = 0, a = masuvelior_per_mille(p.count, p.size, &x), b = f(p.count, p.size, &y);
    if (a == b && x == y) continue;
    printf("%s differs at %u of %u: %u, %u\n", name, p.count, p.size, x, y);
    exit(1);
  }
}

void compare(uint32_t bits, const char *name, rate_fn *theirs, const Pairs &pairs) {
  Turns t = in_turns(ROUNDS, [&] { return timed(ours, pairs); }, [&] { return timed(theirs, pairs); });
  printf("| %u bits | %s | %.2f ns | %.2f ns | %.2f |\n", bits, name, t.ours, t.theirs, t.ratio);
}

void compare_all(uint32_t bits) {
  Pairs pairs = drawn(bits);
  struct { const char *name; rate_fn *f; } same[] = {{"quotient and remainder", peer_remainder}, {"a case for each of below, at and above a half", peer_cases}, {"floating point", peer_floating}};
  for (auto &peer : same) verify(peer.name, peer.f, pairs);
  for (auto &peer : same) compare(bits, peer.name, peer.f, pairs);
  compare(bits, "rounded down", peer_down, pairs);
#ifdef BEFORE
  compare(bits, "before", before_masuvelior_per_mille, pairs);
#endif
}
}

int main() {
  printf("| Sizes of | Beside | ours | theirs | Ratio |\n|---|---|--:|--:|--:|\n");
  compare_all(16);
  compare_all(32);
  return sink == 0;
}
