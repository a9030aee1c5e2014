// What select, the count of a set, the listing, the conjunction, the searches, questions with and, or, not and the order of terms answer by the definitions in docs/FORMAT.md: from the list alone, sharing nothing with a contender.
#pragma once
#include <algorithm>
#include <iterator>
#include <map>
#include <set>
#include <stddef.h>
#include <stdint.h>
#include <utility>
#include <vector>

typedef std::vector<uint32_t> Numbers;

// The places of a document, ascending, and n behind them: what select answers for 1, 2, .. up to one more than there are.
inline Numbers places_of(const Numbers &list, uint32_t d) {
  Numbers places;
  for (size_t i = 0; i < list.size(); i++)
    if (list[i] == d) places.push_back((uint32_t)i);
  places.push_back((uint32_t)list.size());
  return places;
}

// Pairs of document and count with the place of the document's first entry from a to b behind each. What a map has of a document stays.
inline Numbers with_first_places(const Numbers &pairs, const Numbers &list, size_t a, size_t b) {
  std::map<uint32_t, uint32_t> firsts;
  for (size_t i = a; i < b; i++) firsts.emplace(list[i], (uint32_t)i);
  Numbers threes;
  for (size_t i = 0; i < pairs.size(); i += 2) threes.insert(threes.end(), {pairs[i], pairs[i + 1], firsts.at(pairs[i])});
  return threes;
}

typedef std::set<uint32_t> Documents;

// How many of the entries before a place belong to a set of documents.
inline uint32_t count_of_set(const Numbers &list, const Documents &set, size_t place) {
  uint32_t count = 0;
  for (size_t i = 0; i < place; i++) count += (uint32_t)set.count(list[i]);
  return count;
}

// What the terms of a question come to: a repeated term counts once.
inline std::set<uint32_t> different(const uint32_t *given, size_t size) { return std::set<uint32_t>(given, given + size); }

// The rarest first, by the terms' lengths. Those of the same length stay ascending.
inline Numbers rarest_first_of(const Numbers &lengths, const std::set<uint32_t> &terms) {
  Numbers order(terms.begin(), terms.end());
  std::stable_sort(order.begin(), order.end(), [&](uint32_t s, uint32_t t) { return lengths[s] < lengths[t]; });
  return order;
}

// The marks of a question with and, or, not.
const uint16_t AND = 60000, OR = 60001, NOT = 60002, OPENS = 60003, CLOSES = 60004;

// The last place from a to b with a mark outside brackets; b where there is none.
inline const uint16_t *last_outside(const uint16_t *a, const uint16_t *b, uint16_t mark) {
  const uint16_t *last = b;
  int depth = 0;
  for (const uint16_t *p = a; p < b; p++) {
    depth += (*p == OPENS) - (*p == CLOSES);
    if (*p == mark && depth == 0) last = p;
  }
  return last;
}

// The documents that match a part of a question with a reading: where it has an or outside brackets, the last of them parts it, else the last and;
// else it is not with what that is of, a bracket or a word.
template <class Under> Documents matching(const uint16_t *a, const uint16_t *b, const Documents &all, Under under) {
  auto part = [&](const uint16_t *from, const uint16_t *to) { return matching(from, to, all, under); };
  Documents found;
  auto into = std::inserter(found, found.end());
  const uint16_t *last_or = last_outside(a, b, OR), *last_and = last_outside(a, b, AND);
  if (last_or != b) {
    Documents first = part(a, last_or), second = part(last_or + 1, b);
    std::set_union(first.begin(), first.end(), second.begin(), second.end(), into);
  } else if (last_and != b) {
    Documents first = part(a, last_and), second = part(last_and + 1, b);
    std::set_intersection(first.begin(), first.end(), second.begin(), second.end(), into);
  } else if (*a == NOT) {
    Documents of = part(a + 1, b);
    std::set_difference(all.begin(), all.end(), of.begin(), of.end(), into);
  } else {
    found = *a == OPENS ? part(a + 1, b - 1) : under(*a);
  }
  return found;
}

// The largest g with 2^g * df^4 at most N^4, by trying each; 0 without entries.
inline uint32_t weight_by_trying(uint32_t documents, uint32_t df) {
  typedef unsigned __int128 Wide;
  Wide all = (Wide)documents * documents * documents * documents, some = (Wide)df * df * df * df;
  uint32_t weight = 0;
  for (uint32_t g = 0; df && g <= 64; g++)
    if (some << g <= all) weight = g;
  return weight;
}

// A node of two or more numbers that lives.
struct Inner {
  uint32_t start, score;
};

// For each document its entries, in how many of the added ranges it has some, and the score by which it is ranked.
struct Sums {
  uint32_t documents, added;
  Numbers entries, found_in, scores;
  Sums(uint32_t N) : documents(N), added(0), entries(N), found_in(N), scores(N) {}

  // The entries a to b: each adds 1 to the score, or the weight of a term that has these.
  void add(const Numbers &list, size_t a, size_t b, bool term) {
    Numbers counts(documents);
    for (size_t i = a; i < b; i++) counts[list[i]]++;
    uint32_t df = documents - (uint32_t)std::count(counts.begin(), counts.end(), 0u), weight = term ? weight_by_trying(documents, df) : 1;
    for (uint32_t d = 0; d < documents; d++) {
      entries[d] += counts[d];
      found_in[d] += counts[d] != 0;
      scores[d] += weight * counts[d];
    }
    added++;
  }

  // The conjunction, or the listing of one range: the documents with an entry in all that was added, ascending, with their entries.
  Numbers common() const {
    Numbers pairs;
    for (uint32_t d = 0; d < documents; d++)
      if (found_in[d] == added) pairs.insert(pairs.end(), {d, entries[d]});
    return pairs;
  }

  // The full list: the first k of the documents with an entry, by larger score and then lower number.
  Numbers list(uint32_t k) const {
    std::vector<std::pair<uint32_t, uint32_t>> ranking; // the score reversed, and the document
    for (uint32_t d = 0; d < documents; d++)
      if (entries[d]) ranking.push_back({~scores[d], d});
    std::sort(ranking.begin(), ranking.end());
    if (ranking.size() > k) ranking.resize(k);
    Numbers pairs;
    for (auto &r : ranking) pairs.insert(pairs.end(), {r.second, ~r.first});
    return pairs;
  }

  std::vector<Inner> inner_nodes() const {
    std::vector<Inner> nodes;
    for (uint32_t size = 2; size / 2 < documents; size *= 2)
      for (uint32_t start = 0; start < documents; start += size) {
        uint32_t lives = 0, score = 0;
        for (uint32_t d = start; d < std::min(documents, start + size); d++) {
          lives += entries[d];
          score += scores[d];
        }
        if (lives) nodes.push_back({start, score});
      }
    return nodes;
  }
};

// How many of the nodes a front part needs whose last document is d, with the score c.
inline uint64_t need_of(const std::vector<Inner> &nodes, uint32_t d, uint32_t c) {
  uint64_t needed = 0;
  for (const Inner &v : nodes) needed += v.score > c || (v.score == c && v.start <= d);
  return needed;
}

// What a search answers under an allowance, as abi.h has it: from the full list, with so many numbers for a document.
inline uint64_t bounded_answer(const std::vector<Inner> &nodes, uint32_t allowance, const uint32_t *full, size_t width, size_t size) {
  for (size_t m = size;; m--) {
    uint64_t need = m ? need_of(nodes, full[width * (m - 1)], full[width * (m - 1) + 1]) : 0;
    if (need <= allowance) return m == size ? need << 32 | m : (uint64_t)1 << 63 | (uint64_t)allowance << 32 | m;
  }
}
