// The operations under test, as C sees them: a slice is its first byte and its length.
#pragma once
#include <stddef.h>
#include <stdint.h>

typedef size_t place_fn(const uint8_t *samples, size_t samples_len, const uint8_t *row, size_t row_len, size_t n, size_t i);
typedef bool check_fn(const uint8_t *samples, size_t samples_len, const uint8_t *row, size_t row_len, size_t n);

extern "C" {
place_fn bit_rows_bench_rank1, bit_rows_bench_select1, bit_rows_bench_select0;
check_fn bit_rows_bench_samples_right;
place_fn peer_rank1, peer_rank1_loop, peer_select1, peer_select0;
check_fn peer_samples_right;
}
