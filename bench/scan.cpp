// The plain scan: entries of 16 bits, counted in an array of N counters, or sorted where the range is short. First places come with the counts.
// The other contenders are verified against it. Its top-k is one, under greedy and under probing.
#include "contender.h"
#include "question.h"
#include "terms.h"
#include <algorithm>
#include <functional>
#include <string.h>
#include <vector>

namespace {
struct Scan {
  std::vector<uint16_t> entries, sorted, firsts;
  std::vector<uint32_t> starts, counts, keys, marks, scores, touched;
  std::vector<uint64_t> scored;
  uint32_t documents, mark;
};

void *build(const Library &l) {
  Scan *x = new Scan;
  x->entries.assign(l.entries, l.entries + l.n);
  x->documents = l.documents;
  x->sorted.resize(l.documents);
  x->firsts.resize(l.documents);
  x->counts.resize(l.documents);
  x->keys.resize(l.documents + 1);
  x->marks.resize(l.documents);
  x->scores.resize(l.documents);
  x->touched.resize(l.documents + 1);
  x->scored.resize(l.documents);
  x->mark = 0;
  x->starts.assign(1, 0);
  for (size_t t = 0; t < l.terms; t++) x->starts.push_back(x->starts.back() + l.lengths[t]);
  return x;
}
void drop(void *p) { delete (Scan *)p; }
size_t bytes(void *p) { return 2 * ((Scan *)p)->entries.size(); }

bool is_short(const Scan &x, size_t size) { return size <= x.documents / 16; }

void count(Scan &x, size_t a, size_t b) {
  uint32_t *counts = x.counts.data();
  memset(counts, 0, 4 * x.documents);
  for (size_t i = a; i < b; i++) counts[x.entries[i]]++;
}

// With first places: backwards, so that the last place written for a document is its first.
void count_with_firsts(Scan &x, size_t a, size_t b) {
  uint32_t *counts = x.counts.data();
  uint16_t *firsts = x.firsts.data();
  memset(counts, 0, 4 * x.documents);
  for (size_t i = b; i-- > a;) {
    uint16_t d = x.entries[i];
    counts[d]++;
    firsts[d] = (uint16_t)i;
  }
}

uint64_t access(void *p, const Query &q, uint32_t *) { return ((Scan *)p)->entries[q.a]; }

// How many of the entries before a place are d.
uint32_t count_of(void *p, size_t d, size_t place) {
  const uint16_t *entries = ((Scan *)p)->entries.data();
  uint32_t c = 0;
  for (size_t i = 0; i < place; i++) c += entries[i] == (uint16_t)d;
  return c;
}

uint64_t rank(void *p, const Query &q, uint32_t *) { return count_of(p, q.x, q.a); }

// The set as bits, then one pass over the entries.
uint64_t rank_set(void *p, const Query &q, uint32_t *) {
  const uint16_t *entries = ((Scan *)p)->entries.data();
  uint64_t members[64] = {0}, c = 0;
  for (size_t i = 0; i < q.size; i++) members[q.set[i] / 64] |= (uint64_t)1 << q.set[i] % 64;
  for (size_t i = 0; i < q.a; i++) c += members[entries[i] / 64] >> entries[i] % 64 & 1;
  return c;
}

// One pass for each document.
uint64_t ranks(void *p, const Query &q, uint32_t *) {
  uint64_t c = 0;
  for (size_t i = 0; i < q.size; i++) c += count_of(p, q.set[i], q.a);
  return c;
}

uint64_t select(void *p, const Query &q, uint32_t *) {
  const std::vector<uint16_t> &entries = ((Scan *)p)->entries;
  size_t j = q.a;
  for (size_t i = 0; i < entries.size(); i++)
    if (entries[i] == q.x && --j == 0) return i;
  return entries.size();
}

uint64_t quantile(void *p, const Query &q, uint32_t *) {
  Scan &x = *(Scan *)p;
  if (is_short(x, q.b - q.a)) {
    uint16_t *s = x.sorted.data(), *end = std::copy(&x.entries[q.a], &x.entries[q.a] + (q.b - q.a), s);
    std::nth_element(s, s + q.x, end);
    return s[q.x];
  }
  count(x, q.a, q.b);
  size_t d = 0;
  for (size_t r = q.x; r >= x.counts[d]; d++) r -= x.counts[d];
  return d;
}

// Of a short range: put(document, count, first place) for each document, ascending, from its entries sorted with their places. How many.
template <class Put> size_t each_sorted(Scan &x, size_t a, size_t b, Put put) {
  uint32_t *s = x.keys.data(), *end = s;
  for (size_t i = a; i < b; i++) *end++ = (uint32_t)x.entries[i] << 16 | (uint32_t)i;
  std::sort(s, end);
  size_t found = 0;
  while (s < end) {
    uint32_t *from = s;
    while (s < end && *s >> 16 == *from >> 16) s++;
    put(found++, *from >> 16, (uint32_t)(s - from), *from & 65535);
  }
  return found;
}

uint64_t list(void *p, const Query &q, uint32_t *answers) {
  Scan &x = *(Scan *)p;
  auto put = [=](size_t i, uint32_t d, uint32_t count, uint32_t first) {
    answers[3 * i] = d;
    answers[3 * i + 1] = count;
    answers[3 * i + 2] = first;
  };
  if (is_short(x, q.b - q.a)) return each_sorted(x, q.a, q.b, put);
  size_t found = 0;
  count_with_firsts(x, q.a, q.b);
  for (uint32_t d = 0; d < x.documents; d++)
    if (x.counts[d]) put(found++, d, x.counts[d], x.firsts[d]);
  return found;
}

// Pairs of document and count.
size_t put_pairs(Scan &x, size_t a, size_t b, uint32_t *answers) {
  size_t found = 0;
  if (is_short(x, b - a)) {
    uint16_t *s = x.sorted.data(), *end = std::copy(x.entries.data() + a, x.entries.data() + b, s);
    std::sort(s, end);
    while (s < end) {
      uint16_t *from = s;
      while (s < end && *s == *from) s++;
      answers[2 * found] = *from;
      answers[2 * found++ + 1] = (uint32_t)(s - from);
    }
    return found;
  }
  count(x, a, b);
  for (uint32_t d = 0; d < x.documents; d++)
    if (x.counts[d]) {
      answers[2 * found] = d;
      answers[2 * found++ + 1] = x.counts[d];
    }
  return found;
}

// Term by term: the sums of the documents that every term so far has.
uint64_t conjunction(void *p, const Query &q, uint32_t *answers) {
  Scan &x = *(Scan *)p;
  uint32_t terms[8], size = each_once(q.chosen, q.size, terms);
  size_t found = put_pairs(x, x.starts[terms[0]], x.starts[terms[0] + 1], answers);
  for (size_t t = 1; t < size && found; t++) {
    count(x, x.starts[terms[t]], x.starts[terms[t] + 1]);
    size_t kept = 0;
    for (size_t i = 0; i < found; i++) {
      uint32_t d = answers[2 * i], c = answers[2 * i + 1];
      if (!x.counts[d]) continue;
      answers[2 * kept] = d;
      answers[2 * kept++ + 1] = c + x.counts[d];
    }
    found = kept;
  }
  return found;
}

// A key has the count, and then the document reversed. In a short range it takes the place of the first of its document's entries, which are done with.
uint64_t top_k(void *p, const Query &q, uint32_t *answers) {
  Scan &x = *(Scan *)p;
  uint32_t *keys = x.keys.data();
  size_t found = 0;
  if (is_short(x, q.b - q.a)) {
    found = each_sorted(x, q.a, q.b, [&](size_t i, uint32_t d, uint32_t count, uint32_t first) {
      keys[i] = count << 16 | (65535 - d);
      x.firsts[d] = (uint16_t)first;
    });
  } else {
    count_with_firsts(x, q.a, q.b);
    for (uint32_t d = 0; d < x.documents; d++) {
      keys[found] = x.counts[d] << 16 | (65535 - d);
      found += x.counts[d] != 0;
    }
  }
  size_t k = std::min<size_t>(q.k, found);
  if (4 * k < found) std::partial_sort(keys, keys + k, keys + found, std::greater<uint32_t>());
  else std::sort(keys, keys + found, std::greater<uint32_t>());
  for (size_t i = 0; i < k; i++) {
    uint32_t d = 65535 - (keys[i] & 65535);
    answers[3 * i] = d;
    answers[3 * i + 1] = keys[i] >> 16;
    answers[3 * i + 2] = x.firsts[d];
  }
  return k;
}

// The largest g with df^4 at most N^4 / 2^g.
uint32_t weight_of(uint64_t documents, uint64_t df) {
  uint64_t all = documents * documents * documents * documents, some = df * df * df * df;
  uint32_t g = 0;
  while (df && some <= all >> (g + 1)) g++;
  return g;
}

// Two passes over each term's entries: the first marks its documents, which gives the weight; the second adds it to their scores.
// A document that is met in the question for the first time has no mark from the question's first one on, and joins the list of those.
uint64_t weighted(void *p, const Query &q, uint32_t *answers) {
  Scan &x = *(Scan *)p;
  uint32_t *marks = x.marks.data(), *scores = x.scores.data(), *touched = x.touched.data();
  uint64_t *scored = x.scored.data();
  if (x.mark > 0xffffff00) {
    std::fill(x.marks.begin(), x.marks.end(), 0);
    x.mark = 0;
  }
  uint32_t first = x.mark + 1, found = 0, terms[8], size = each_once(q.chosen, q.size, terms);
  for (size_t t = 0; t < size; t++) {
    const uint16_t *a = x.entries.data() + x.starts[terms[t]], *b = x.entries.data() + x.starts[terms[t] + 1];
    uint32_t mark = ++x.mark, df = 0;
    for (const uint16_t *e = a; e < b; e++) {
      touched[found] = *e;
      found += marks[*e] < first;
      df += marks[*e] != mark;
      marks[*e] = mark;
    }
    uint32_t weight = weight_of(x.documents, df);
    for (const uint16_t *e = a; e < b; e++) scores[*e] += weight;
  }
  for (size_t i = 0; i < found; i++) {
    scored[i] = (uint64_t)scores[touched[i]] << 16 | (65535 - touched[i]);
    scores[touched[i]] = 0;
  }
  size_t k = std::min<size_t>(q.k, found);
  if (4 * k < found) std::partial_sort(scored, scored + k, scored + found, std::greater<uint64_t>());
  else std::sort(scored, scored + found, std::greater<uint64_t>());
  for (size_t i = 0; i < k; i++) {
    answers[2 * i] = 65535 - (uint32_t)(scored[i] & 65535);
    answers[2 * i + 1] = (uint32_t)(scored[i] >> 16);
  }
  return k;
}

// A bitmap of each different word from its entries.
uint64_t boolean(void *p, const Query &q, uint32_t *answers) {
  Scan &x = *(Scan *)p;
  Question question;
  uint64_t bitmaps[32][64];
  read_question(q.question, q.size, question);
  for (size_t i = 0; i < question.words; i++) {
    const uint16_t *a = x.entries.data() + x.starts[question.terms[i]], *b = x.entries.data() + x.starts[question.terms[i] + 1];
    memset(bitmaps[i], 0, (x.documents + 63) / 64 * 8);
    for (const uint16_t *e = a; e < b; e++) bitmaps[i][*e / 64] |= (uint64_t)1 << *e % 64;
  }
  return put_matching(question, bitmaps, x.documents, answers);
}

// The entries of each term; then the smallest that is left, again and again. A repeated term goes with its first. The rest of eight numbers is 0.
uint64_t rarest_first(void *p, const Query &q, uint32_t *order) {
  const uint32_t *starts = ((Scan *)p)->starts.data();
  const uint64_t none = ~(uint64_t)0;
  uint64_t keys[8], found = 0;
  std::fill(order, order + 8, 0);
  for (size_t i = 0; i < q.size; i++) {
    uint32_t t = q.chosen[i];
    keys[i] = (uint64_t)(starts[t + 1] - starts[t]) << 32 | t;
  }
  for (uint64_t from = 0;;) {
    uint64_t least = none;
    for (size_t i = 0; i < q.size; i++)
      if (from <= keys[i] && keys[i] < least) least = keys[i];
    if (least == none) return found;
    order[found++] = (uint32_t)least;
    from = least + 1;
  }
}
}

Contender scan_contender() {
  return {"scan", build, drop, bytes, {nullptr, nullptr, nullptr, access, rank, rank_set, ranks, select, quantile, list, conjunction, top_k, top_k, weighted, boolean, rarest_first}};
}
