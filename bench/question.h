// A question with and, or, not as every contender but ours takes it: read once, each different word looked up once, and answered from the words'
// bitmaps for 64 documents at a time.
#pragma once
#include <stddef.h>
#include <stdint.h>

namespace {
enum Mark : uint16_t { AND = 60000, OR, NOT, OPENS, CLOSES };

// In a step: a smaller number is that of a word.
enum Operation : uint8_t { BOTH = 32, EITHER, OTHERS };

struct Question {
  uint32_t words, size;
  uint16_t terms[33]; // the different words, and a place behind them
  uint8_t steps[64];  // first what is combined, then how
};

// The number of a word among the different ones.
inline uint8_t number_of(Question &q, uint16_t word) {
  uint32_t i = 0;
  q.terms[q.words] = word;
  while (q.terms[i] != word) i++;
  q.words += i == q.words;
  return (uint8_t)i;
}

inline void put_step(Question &q, uint16_t mark) { q.steps[q.size++] = mark == AND ? BOTH : mark == OR ? EITHER : OTHERS; }

// The given numbers have a reading. A mark waits until one comes that binds no tighter: not does so before and, and before or.
inline void read_question(const uint16_t *given, size_t size, Question &q) {
  uint16_t waiting[64];
  uint32_t held = 0;
  q.words = q.size = 0;
  for (size_t i = 0; i < size; i++) {
    uint16_t x = given[i];
    if (x < AND) {
      q.steps[q.size++] = number_of(q, x);
    } else if (x == CLOSES) {
      while (waiting[--held] != OPENS) put_step(q, waiting[held]);
    } else {
      if (x == AND || x == OR)
        while (held && waiting[held - 1] != OPENS && (x == OR || waiting[held - 1] != OR)) put_step(q, waiting[--held]);
      waiting[held++] = x;
    }
  }
  while (held) put_step(q, waiting[--held]);
}

// The documents of a block that match. A bitmap has 64 blocks; one set is at hand, the others of those that are not yet combined are on a stack.
inline uint64_t matching(const Question &q, const uint64_t (*bitmaps)[64], size_t block) {
  uint64_t stack[32], set = 0;
  uint32_t held = 0;
  for (uint32_t i = 0; i < q.size; i++) {
    uint32_t step = q.steps[i];
    if (step < BOTH) {
      stack[held++] = set;
      set = bitmaps[step][block];
    } else if (step == OTHERS) {
      set = ~set;
    } else {
      held--;
      set = step == BOTH ? stack[held] & set : stack[held] | set;
    }
  }
  return set;
}

// Whether no word has a document in a block.
inline bool is_blank(const Question &q, const uint64_t (*bitmaps)[64], size_t block) {
  for (uint32_t i = 0; i < q.words; i++)
    if (bitmaps[i][block]) return false;
  return true;
}

// The matching documents, ascending; how many. What a block without a document of any word comes to is found once; eight documents that all match are
// written at once.
inline size_t put_matching(const Question &q, const uint64_t (*bitmaps)[64], size_t documents, uint32_t *answers) {
  static const uint64_t none[32][64] = {};
  uint64_t blank = matching(q, none, 0);
  size_t found = 0;
  for (size_t first = 0; first < documents; first += 64) {
    uint64_t set = is_blank(q, bitmaps, first / 64) ? blank : matching(q, bitmaps, first / 64);
    if (documents - first < 64) set &= ((uint64_t)1 << (documents - first)) - 1;
    for (uint32_t d = (uint32_t)first; set;) {
      if ((set & 255) == 255) {
        for (uint32_t k = 0; k < 8; k++) answers[found + k] = d + k;
        found += 8;
        d += 8;
        set >>= 8;
      } else {
        uint32_t zeros = (uint32_t)__builtin_ctzll(set);
        answers[found++] = d + zeros;
        d += zeros + 1;
        set = set >> zeros >> 1;
      }
    }
  }
  return found;
}
}
