// Each operation of bit_rows beside its peer, in rounds that take turns: medians, and the median of the rounds' ratios.
#include "../turns.h"
#include "peer.h"
#include <stdio.h>
#include <string.h>

namespace {
const size_t N = 65535, QUERIES = 1 << 16, ROUNDS = 101;
std::vector<uint8_t> row((N + 7) / 8), samples(4 * ((N + 511) / 512));
size_t sink;

double places(place_fn *f, const std::vector<size_t> &queries) {
  double start = now();
  for (size_t q : queries) sink += f(samples.data(), samples.size(), row.data(), row.size(), N, q);
  return (now() - start) / queries.size();
}

double checks(check_fn *f) {
  const int times = 200;
  double start = now();
  for (int k = 0; k < times; k++) sink += f(samples.data(), samples.size(), row.data(), row.size(), N);
  return (now() - start) / times;
}

template <class Run> void compare(const char *name, const char *peer, Run ours, Run theirs, double bytes) {
  Turns t = in_turns(ROUNDS, ours, theirs);
  printf("| %s | %s | %.2f ns | %.2f ns | %.2f |", name, peer, t.ours, t.theirs, t.ratio);
  if (bytes > 0) printf(" %.1f GB/s |\n", bytes / t.ours); else printf(" |\n");
}

void compare_places(const char *name, const char *peer, place_fn *ours, place_fn *theirs, size_t largest) {
  for (size_t q = 0; q <= largest; q++) {
    size_t x = ours(samples.data(), samples.size(), row.data(), row.size(), N, q);
    size_t y = theirs(samples.data(), samples.size(), row.data(), row.size(), N, q);
    if (x != y) { printf("%s differs from %s at %zu: %zu, %zu\n", name, peer, q, x, y); return; }
  }
  std::vector<size_t> queries(QUERIES);
  for (size_t &q : queries) q = next() % (largest + 1);
  struct { place_fn *f; const std::vector<size_t> &q; double operator()() const { return places(f, q); } } a{ours, queries}, b{theirs, queries};
  compare(name, peer, a, b, 0);
}
}

int main() {
  for (uint8_t &b : row) b = next();
  row.back() &= 127;
  uint32_t count = 0;
  for (size_t i = 0; i < N; i++) {
    if (i % 512 == 0) memcpy(&samples[i / 512 * 4], &count, 4);
    count += row[i / 8] >> i % 8 & 1;
  }
  printf("| Operation | Beside | bit_rows | C++ | Ratio | Rate |\n|---|---|--:|--:|--:|--:|\n");
  compare_places("rank1", "the same algorithm", bit_rows_bench_rank1, peer_rank1, N);
  compare_places("rank1", "a loop over words", bit_rows_bench_rank1, peer_rank1_loop, N);
  compare_places("select1", "the same algorithm", bit_rows_bench_select1, peer_select1, count + 1);
  compare_places("select0", "the same algorithm", bit_rows_bench_select0, peer_select0, N - count + 1);
  struct { check_fn *f; double operator()() const { return checks(f); } } a{bit_rows_bench_samples_right}, b{peer_samples_right};
  compare("samples_right", "the same algorithm", a, b, row.size());
  return sink == 0;
}
