// The terms of a question as contenders other than ours take them, in front of a search: a repeated term counts once. rarest.h has those of the peers'
// weighted top-k.
#pragma once
#include <stdint.h>

// Of at most eight given terms each different one: the first stands, later ones drop out. How many are left.
static inline uint32_t each_once(const uint32_t *given, uint32_t size, uint32_t *terms) {
  uint32_t left = 0;
  for (uint32_t i = 0; i < size; i++) {
    uint32_t first = 0;
    while (given[first] != given[i]) first++;
    terms[left] = given[i];
    left += first == i;
  }
  return left;
}
