// The operations on an archive as C sees them: a slice is its first element and its length, and the levels of an opened archive are numbers.
// ours.cpp, and peer.cpp with weighted.cpp, boolean.cpp, rank_set.cpp and rarest_first.cpp, have them under a prefix for each way that they are compiled.
#pragma once
#include <stddef.h>
#include <stdint.h>

#define LEVELS const uint8_t *bytes, size_t len, size_t n, size_t height, size_t samples, size_t rows
#define LEVELS_UNUSED const uint8_t *bytes, size_t len, size_t, size_t, size_t, size_t

// 0, or the number of the refusal.
typedef size_t open_fn(const uint8_t *bytes, size_t len);
// The archive's length, or the number of the refusal, which is below any length.
typedef size_t write_fn(const uint32_t *entries, size_t n, const uint32_t *lengths, size_t terms, uint32_t documents, uint8_t *target, size_t target_len);
typedef void read_fn(LEVELS, size_t documents, uint32_t *entries, size_t entries_len, uint32_t *lengths, size_t terms);
typedef size_t access_fn(LEVELS, size_t i);
typedef size_t rank_fn(LEVELS, size_t d, size_t i);
// How many of the entries before the place belong to a set of so many documents, ascending.
typedef size_t rank_set_fn(LEVELS, const uint32_t *set, size_t size, size_t place);
// The place of the i-th entry d, i from 1; n where there is none.
typedef size_t select_fn(LEVELS, size_t d, size_t i);
// The document.
typedef size_t quantile_fn(LEVELS, size_t a, size_t b, size_t r);
// The following answer how many documents they wrote. The listing, greedy and probing write three numbers for each: document, count, and the place of
// its first entry in the range, counted from entry 0; the conjunction and weighted write pairs of document and count or score.
typedef size_t list_fn(LEVELS, size_t documents, size_t a, size_t b, uint32_t *answers, size_t answers_len);
// Of eight chosen numbers the first `size` are the terms; a repeated one counts once.
typedef size_t conjunction_fn(LEVELS, size_t documents, size_t terms, const uint32_t *chosen, uint32_t size, uint32_t *answers, size_t answers_len);
// The documents in the low 32 bits, the openings from bit 32 on, and in bit 63 whether the allowance was spent.
typedef uint64_t greedy_fn(LEVELS, size_t documents, size_t a, size_t b, uint32_t k, uint32_t allowance, uint32_t *answers, size_t answers_len, uint32_t *work, size_t work_len);
typedef size_t probing_fn(LEVELS, size_t documents, size_t a, size_t b, uint32_t k, uint32_t *answers, size_t answers_len, uint32_t *work, size_t work_len);
// The terms are as those of the conjunction; the answer is as that of greedy.
typedef uint64_t weighted_fn(LEVELS, size_t documents, size_t terms, const uint32_t *chosen, uint32_t size, uint32_t k, uint32_t allowance, uint32_t *answers, size_t answers_len, uint32_t *work, size_t work_len);
// A question with and, or, not of so many numbers, which has a reading; how many documents were written.
typedef size_t boolean_fn(LEVELS, size_t documents, size_t terms, const uint16_t *question, size_t size, uint32_t *answers, size_t answers_len);
// Of eight chosen numbers the first `size` are the terms: the different ones, that with the fewest entries first, of equal ones the lower. How many were
// written into the front of eight.
typedef size_t rarest_first_fn(LEVELS, size_t terms, const uint32_t *chosen, uint32_t size, uint32_t *order);

// All of them, under the prefix that F puts before a name.
#define JOIN_(p, f) p##_##f
#define JOIN(p, f) JOIN_(p, f)
#define DECLARE_OPERATIONS open_fn F(open); write_fn F(write); read_fn F(read); access_fn F(access); rank_fn F(rank); rank_set_fn F(rank_set); select_fn F(select); quantile_fn F(quantile); list_fn F(list); conjunction_fn F(conjunction); greedy_fn F(greedy); probing_fn F(probing); weighted_fn F(weighted); boolean_fn F(boolean); rarest_first_fn F(rarest_first);

struct Operations {
  open_fn *open;
  write_fn *write;
  read_fn *read;
  access_fn *access;
  rank_fn *rank;
  rank_set_fn *rank_set;
  select_fn *select;
  quantile_fn *quantile;
  list_fn *list;
  conjunction_fn *conjunction;
  greedy_fn *greedy;
  probing_fn *probing;
  weighted_fn *weighted;
  boolean_fn *boolean;
  rarest_first_fn *rarest_first;
};
