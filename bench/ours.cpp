// The proved operations as the harness asks them, through bindings/c/masuvelior.h. OURS is the prefix of these functions; CHECKED chooses the form:
//   0  on an archive that was opened before
//   1  with the check of the archive first, as each question by the book
#include "../bindings/c/masuvelior.h"
#include "abi.h"
#include <stdlib.h>

#if CHECKED
#define ASK(f) masuvelior_##f
#else
#define ASK(f) masuvelior_opened_##f
#endif
#define F(f) JOIN(OURS, f)
typedef uint32_t u32;

// The harness asks nothing that is refused.
static inline void answered(u32 refusal) {
  if (refusal != MASUVELIOR_OK) abort();
}

extern "C" {
DECLARE_OPERATIONS

size_t F(open)(const uint8_t *bytes, size_t len) {
  u32 n, documents, terms;
  return masuvelior_open(bytes, len, &n, &documents, &terms);
}

size_t F(write)(const u32 *entries, size_t n, const u32 *lengths, size_t terms, u32 documents, uint8_t *target, size_t target_len) {
  size_t size;
  u32 refusal = masuvelior_write(entries, n, lengths, terms, documents, target, target_len, &size);
  return refusal ? refusal : size;
}

void F(read)(LEVELS_UNUSED, size_t, u32 *entries, size_t entries_len, u32 *lengths, size_t terms) {
  u32 size[3];
  answered(ASK(read)(bytes, len, entries, entries_len, lengths, terms, size, size + 1, size + 2));
}

size_t F(access)(LEVELS_UNUSED, size_t i) {
  u32 document = 0;
  answered(ASK(access)(bytes, len, (u32)i, &document));
  return document;
}

size_t F(rank)(LEVELS_UNUSED, size_t d, size_t i) {
  u32 count = 0;
  answered(ASK(rank)(bytes, len, (u32)d, (u32)i, &count));
  return count;
}

size_t F(rank_set)(LEVELS_UNUSED, const u32 *set, size_t size, size_t place) {
  u32 count = 0;
  answered(ASK(rank_set)(bytes, len, set, size, (u32)place, &count));
  return count;
}

size_t F(select)(LEVELS_UNUSED, size_t d, size_t i) {
  u32 place = 0;
  answered(ASK(select)(bytes, len, (u32)d, (u32)i, &place));
  return place;
}

size_t F(quantile)(LEVELS_UNUSED, size_t a, size_t b, size_t r) {
  u32 document = 0;
  answered(ASK(quantile)(bytes, len, (u32)a, (u32)b, (u32)r, &document));
  return document;
}

size_t F(list)(LEVELS_UNUSED, size_t, size_t a, size_t b, u32 *answers, size_t answers_len) {
  u32 listed = 0;
  answered(ASK(list)(bytes, len, (u32)a, (u32)b, answers, answers_len, &listed));
  return listed;
}

size_t F(conjunction)(LEVELS_UNUSED, size_t, size_t, const u32 *chosen, u32 size, u32 *answers, size_t answers_len) {
  u32 listed = 0;
  answered(ASK(conjunction)(bytes, len, chosen, size, answers, answers_len, &listed));
  return listed;
}

uint64_t F(greedy)(LEVELS_UNUSED, size_t, size_t a, size_t b, u32 k, u32 allowance, u32 *answers, size_t answers_len, u32 *work, size_t work_len) {
  u32 listed = 0, spent = 0, number = 0;
  answered(ASK(greedy_entries)(bytes, len, (u32)a, (u32)b, k, allowance, answers, answers_len, work, work_len, &listed, &spent, &number));
  return (uint64_t)spent << 63 | (uint64_t)number << 32 | listed;
}

size_t F(probing)(LEVELS_UNUSED, size_t, size_t a, size_t b, u32 k, u32 *answers, size_t answers_len, u32 *work, size_t work_len) {
  u32 listed = 0;
  answered(ASK(probing_entries)(bytes, len, (u32)a, (u32)b, k, answers, answers_len, work, work_len, &listed));
  return listed;
}

uint64_t F(weighted)(LEVELS_UNUSED, size_t, size_t, const u32 *chosen, u32 size, u32 k, u32 allowance, u32 *answers, size_t answers_len, u32 *work, size_t work_len) {
  u32 listed = 0, spent = 0, number = 0;
  answered(ASK(weighted)(bytes, len, chosen, size, k, allowance, answers, answers_len, work, work_len, &listed, &spent, &number));
  return (uint64_t)spent << 63 | (uint64_t)number << 32 | listed;
}

size_t F(boolean)(LEVELS_UNUSED, size_t, size_t, const uint16_t *question, size_t size, u32 *answers, size_t answers_len) {
  u32 listed = 0;
  answered(ASK(boolean)(bytes, len, question, size, answers, answers_len, &listed));
  return listed;
}

size_t F(rarest_first)(LEVELS_UNUSED, size_t, const u32 *chosen, u32 size, u32 *order) {
  u32 different = 0;
  answered(ASK(rarest_first)(bytes, len, chosen, size, order, &different));
  return different;
}
}
