// What the harness asks of a contender: an index of a library, and the operations that it has.
#pragma once
#include <stddef.h>
#include <stdint.h>

struct Library {
  const uint32_t *entries;
  size_t n;
  const uint32_t *lengths;
  size_t terms;
  uint32_t documents;
};

// Each operation takes its own of these.
struct Query {
  size_t a, b, x;        // a range or a place, and a document or a rank
  uint32_t k, allowance; // top-k, weighted too
  uint32_t chosen[8];    // conjunction, weighted, rarest first: the first `size` are the terms
  uint32_t size;
  const uint16_t *question; // boolean: so many numbers as `size` says
  const uint32_t *set;      // rank set, rank each: so many documents, ascending, before the place a
};

enum Op { OPEN, WRITE, READ, ACCESS, RANK, RANK_SET, RANKS, SELECT, QUANTILE, LIST, CONJUNCTION, GREEDY, PROBING, WEIGHTED, BOOLEAN, RAREST_FIRST, OPS };

// The low 32 bits of a result are compared: a number, or how many documents or terms (rarest first) were written. With a document stand its count and first
// place (list, greedy, probing), its count (conjunction) or its score (weighted).
typedef uint64_t op_fn(void *index, const Query &q, uint32_t *answers);

struct Contender {
  const char *name;
  void *(*build)(const Library &);
  void (*drop)(void *index);
  size_t (*bytes)(void *index); // rows and what serves their ranks, without the term table
  op_fn *ops[OPS];              // null where it has none
  bool no_places = false;       // whether list, greedy and probing write pairs, as a library from before M-108 does
};
