/* The stack that each function takes, held to what the header says of it. Each is called on a stack of its own that was painted before; the
 * lowest byte that lost its paint says how far the call went. run.sh builds and runs it; it ends with 0 where all keep their bounds. */
#define _XOPEN_SOURCE 700
#include "masuvelior.h"
#include <stdio.h>
#include <string.h>
#include <ucontext.h>

enum { STACK = 1 << 17, PAINT = 0xA5, N = MASUVELIOR_MAX_DOCUMENTS, W = MASUVELIOR_MAX_TERMS, ENTRIES = MASUVELIOR_MAX_ENTRIES };
enum { WRITER = 25 * 1024, BOOLEAN = 22 * 1024, LIST = 22 * 1024, READER = 17 * 1024, WEIGHTED = 7 * 1024 };
enum { RANK_SET = 6 * 1024, TOP_K = 6 * 1024, OTHER = 4 * 1024 };

/* Eight terms with as many entries each, typed descending, so that each has another place in their order. */
static const uint32_t chosen[MASUVELIOR_MAX_CHOSEN] = {7, 6, 5, 4, 3, 2, 1, 0};

/* A library at every limit, with entries in every node: calls go all their way. */
static uint32_t entries[ENTRIES], lengths[W], answers[3 * N], work[4 * N], listed, spent, number;
static uint32_t order[MASUVELIOR_MAX_CHOSEN];
static uint16_t question[MASUVELIOR_MAX_QUESTION];
static uint32_t set[MASUVELIOR_MAX_SET];
static uint8_t archive[1 << 18];
static size_t size, needed;

static void make_library(void) {
  for (uint32_t i = 0; i < ENTRIES; i++) entries[i] = (i * 2654435761u) >> 20;
  for (uint32_t t = 0; t < W; t++) lengths[t] = t < 8 ? 4096 : t == W - 1 ? ENTRIES - 8 * 4096 : 0;
}

/* The question that is read deepest: brackets as deep as they may nest, and in them one term, behind as many 'not' as there is room for. */
static void make_question(void) {
  enum { LAST = MASUVELIOR_MAX_QUESTION - 1 - MASUVELIOR_MAX_DEPTH };
  for (size_t i = 0; i < MASUVELIOR_MAX_QUESTION; i++)
    question[i] = i < MASUVELIOR_MAX_DEPTH ? MASUVELIOR_OPEN : i < LAST ? MASUVELIOR_NOT : MASUVELIOR_CLOSE;
  question[LAST] = 0;
}

/* The set that is followed deepest: on the way to the last document it parts at every node but the lowest, where that one is left alone. Before
 * the twelve documents for it stand as many others as there is room for. */
static void make_set(void) {
  enum { ROWS = 12, OTHERS = MASUVELIOR_MAX_SET - ROWS };
  for (uint32_t i = 0; i < OTHERS; i++) set[i] = 39 * i;
  for (uint32_t i = 0; i < ROWS - 1; i++) set[OTHERS + i] = N - 1 - (N / 2 >> i);
  set[MASUVELIOR_MAX_SET - 1] = N - 1;
}

/* Every function: the end of its name, its bound, the call. */
#define BYTES archive, size
#define ANSWERS answers, 3 * N, &listed
#define SEARCH answers, 3 * N, work, 4 * N, &listed
#define QUESTIONS(X, form)                                                                                   \
  X(form##read, READER, (BYTES, entries, ENTRIES, lengths, W, &listed, &spent, &number))                     \
  X(form##access, OTHER, (BYTES, 12345, &number))                                                            \
  X(form##rank, OTHER, (BYTES, 1234, 56789, &number))                                                        \
  X(form##rank_set, RANK_SET, (BYTES, set, MASUVELIOR_MAX_SET, 56789, &number))                              \
  X(form##select, OTHER, (BYTES, 1234, 3, &number))                                                          \
  X(form##quantile, OTHER, (BYTES, 1, 60000, 3456, &number))                                                 \
  X(form##quantile_terms, OTHER, (BYTES, 0, W - 1, 3456, &number))                                           \
  X(form##list, LIST, (BYTES, 0, ENTRIES, ANSWERS))                                                          \
  X(form##list_terms, LIST, (BYTES, 0, W - 1, ANSWERS))                                                      \
  X(form##conjunction, OTHER, (BYTES, chosen, MASUVELIOR_MAX_CHOSEN, ANSWERS))                               \
  X(form##boolean, BOOLEAN, (BYTES, question, MASUVELIOR_MAX_QUESTION, answers, N, &listed))                 \
  X(form##range_of_terms, OTHER, (BYTES, 0, W - 1, &listed, &number))                                        \
  X(form##rarest_first, OTHER, (BYTES, chosen, MASUVELIOR_MAX_CHOSEN, order, &number))                       \
  X(form##greedy_entries, TOP_K, (BYTES, 0, ENTRIES, N, UINT32_MAX, SEARCH, &spent, &number))                \
  X(form##greedy_terms, TOP_K, (BYTES, 0, W - 1, N, UINT32_MAX, SEARCH, &spent, &number))                    \
  X(form##probing_entries, TOP_K, (BYTES, 0, ENTRIES, N, SEARCH))                                            \
  X(form##probing_terms, TOP_K, (BYTES, 0, W - 1, N, SEARCH))                                                \
  X(form##weighted, WEIGHTED, (BYTES, chosen, MASUVELIOR_MAX_CHOSEN, N, UINT32_MAX, SEARCH, &spent, &number))
#define CALLS(X)                                                                                             \
  X(archive_length, OTHER, (ENTRIES, N, W, &needed))                                                         \
  X(write, WRITER, (entries, ENTRIES, lengths, W, N, archive, sizeof archive, &size))                        \
  X(open, OTHER, (BYTES, &listed, &spent, &number))                                                          \
  X(per_mille, OTHER, (3, 16, &number))                                                                      \
  QUESTIONS(X, )                                                                                             \
  QUESTIONS(X, opened_)

static uint32_t code;
#define DEFINE(name, bound, arguments) \
  static void call_##name(void) { code = masuvelior_##name arguments; }
CALLS(DEFINE)

struct call {
  const char *name;
  size_t bound;
  void (*call)(void);
};
#define ROW(name, bound, arguments) {#name, bound, call_##name},
static const struct call calls[] = {CALLS(ROW)};

static uint8_t stack[STACK];
static ucontext_t here, there;

/* How many bytes of its stack a call used. */
static size_t used(void (*call)(void)) {
  memset(stack, PAINT, STACK);
  getcontext(&there);
  there.uc_stack.ss_sp = stack;
  there.uc_stack.ss_size = STACK;
  there.uc_link = &here;
  makecontext(&there, call, 0);
  swapcontext(&here, &there);
  size_t free = 0;
  while (free < STACK && stack[free] == PAINT) free++;
  return STACK - free;
}

int main(void) {
  size_t count = sizeof calls / sizeof calls[0], others = 0, deepest = 0;
  int failed = 0;
  make_library();
  make_question();
  make_set();
  for (size_t i = 0; i < count; i++) {
    size_t bytes = used(calls[i].call);
    others += calls[i].bound == OTHER;
    if (calls[i].bound == OTHER && bytes > deepest) deepest = bytes;
    if (calls[i].bound != OTHER) printf("stack: %s takes %zu bytes\n", calls[i].name, bytes);
    if (code != MASUVELIOR_OK || bytes > calls[i].bound) {
      fprintf(stderr, "stack: %s answers %u and takes %zu bytes, over %zu\n", calls[i].name, (unsigned)code, bytes, calls[i].bound);
      failed = 1;
    }
  }
  printf("stack: the deepest of the %zu others takes %zu bytes\n", others, deepest);
  return failed;
}
