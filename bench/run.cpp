// The harness: verifies every contender against the scan, then times all of them side by side.
//   run verify
//   run time SECONDS CSV OPENINGS [FILTER]
#include "abi.h"
#include "contender.h"
#include "definition.h"
#include "timing.h"
#include <algorithm>
#include <deque>
#include <math.h>
#include <numeric>
#include <sched.h>
#include <stdio.h>
#include <stdlib.h>
#include <string.h>
#include <string>
#include <vector>

Contender scan_contender();
extern "C" void sdsl_plain(Contender *), sdsl_popcnt(Contender *);

#define PEER(p) extern "C" { open_fn p##_open; write_fn p##_write; read_fn p##_read; access_fn p##_access; rank_fn p##_rank; rank_set_fn p##_rank_set; select_fn p##_select; quantile_fn p##_quantile; list_fn p##_list; conjunction_fn p##_conjunction; greedy_fn p##_greedy; probing_fn p##_probing; weighted_fn p##_weighted; boolean_fn p##_boolean; rarest_first_fn p##_rarest_first; } \
  constexpr Operations p = {p##_open, p##_write, p##_read, p##_access, p##_rank, p##_rank_set, p##_select, p##_quantile, p##_list, p##_conjunction, p##_greedy, p##_probing, p##_weighted, p##_boolean, p##_rarest_first};

PEER(tight_nopop)
PEER(plain_nopop)
PEER(tight)
PEER(plain)

PEER(opened)
#ifdef BEFORE
PEER(before)
#endif
PEER(checked)

namespace {
const uint32_t NO_BOUND = 0xffffffff;
const uint32_t LENT = 0xa5a5a5a5; // in lent slices, before a question

void fail(const char *format, const char *a, const char *b) {
  fprintf(stderr, format, a, b);
  fputc('\n', stderr);
  exit(1);
}

// ---- contenders on an archive, behind abi.h

struct Archive {
  uint8_t *bytes, *target;
  size_t len, n, height, samples, rows, documents, terms;
  const uint32_t *entries, *lengths;
  Numbers read_entries, read_lengths, work;
};
#define AT(x) x.bytes, x.len, x.n, x.height, x.samples, x.rows

template <const Operations &F> struct Tree {
  static void *build(const Library &l) {
    Archive *x = new Archive;
    x->n = l.n;
    x->documents = l.documents;
    x->terms = l.terms;
    x->entries = l.entries;
    x->lengths = l.lengths;
    for (x->height = 0; (size_t)1 << x->height < l.documents;) x->height++;
    x->samples = 40 + 8 * l.terms;
    x->rows = x->samples + x->height * 4 * ((l.n + 511) / 512);
    x->len = x->rows + x->height * ((l.n + 7) / 8);
    size_t room = (x->len + 63) / 64 * 64;
    x->bytes = (uint8_t *)aligned_alloc(64, room);
    x->target = (uint8_t *)aligned_alloc(64, room);
    x->read_entries.resize(l.n);
    x->read_lengths.resize(l.terms);
    x->work.resize(4 * l.documents + 4);
    if (F.write(l.entries, l.n, l.lengths, l.terms, l.documents, x->bytes, x->len) != x->len) fail("a library was not written", "", "");
    return x;
  }
  static void drop(void *p) {
    free(((Archive *)p)->bytes);
    free(((Archive *)p)->target);
    delete (Archive *)p;
  }
  static size_t bytes(void *p) { return ((Archive *)p)->len - ((Archive *)p)->samples; }
  static uint64_t open(void *p, const Query &, uint32_t *) { return F.open(((Archive *)p)->bytes, ((Archive *)p)->len); }
  static uint64_t write(void *p, const Query &, uint32_t *) {
    Archive &x = *(Archive *)p;
    return F.write(x.entries, x.n, x.lengths, x.terms, (uint32_t)x.documents, x.target, x.len);
  }
  static uint64_t read(void *p, const Query &, uint32_t *) {
    Archive &x = *(Archive *)p;
    F.read(AT(x), x.documents, x.read_entries.data(), x.n, x.read_lengths.data(), x.terms);
    return x.read_entries[x.n / 2];
  }
  static uint64_t access(void *p, const Query &q, uint32_t *) { Archive &x = *(Archive *)p; return F.access(AT(x), q.a); }
  static uint64_t rank(void *p, const Query &q, uint32_t *) { Archive &x = *(Archive *)p; return F.rank(AT(x), q.x, q.a); }
  static uint64_t rank_set(void *p, const Query &q, uint32_t *) { Archive &x = *(Archive *)p; return F.rank_set(AT(x), q.set, q.size, q.a); }
  static uint64_t ranks(void *p, const Query &q, uint32_t *) {
    Archive &x = *(Archive *)p;
    uint64_t sum = 0;
    for (size_t i = 0; i < q.size; i++) sum += F.rank(AT(x), q.set[i], q.a);
    return sum;
  }
  static uint64_t select(void *p, const Query &q, uint32_t *) { Archive &x = *(Archive *)p; return F.select(AT(x), q.x, q.a); }
  static uint64_t quantile(void *p, const Query &q, uint32_t *) { Archive &x = *(Archive *)p; return F.quantile(AT(x), q.a, q.b, q.x); }
  static uint64_t list(void *p, const Query &q, uint32_t *answers) {
    Archive &x = *(Archive *)p;
    return F.list(AT(x), x.documents, q.a, q.b, answers, 3 * x.documents);
  }
  static uint64_t conjunction(void *p, const Query &q, uint32_t *answers) {
    Archive &x = *(Archive *)p;
    return F.conjunction(AT(x), x.documents, x.terms, q.chosen, q.size, answers, 2 * x.documents);
  }
  static uint64_t greedy(void *p, const Query &q, uint32_t *answers) {
    Archive &x = *(Archive *)p;
    return F.greedy(AT(x), x.documents, q.a, q.b, q.k, q.allowance, answers, 3 * x.documents, x.work.data(), x.work.size());
  }
  static uint64_t probing(void *p, const Query &q, uint32_t *answers) {
    Archive &x = *(Archive *)p;
    return F.probing(AT(x), x.documents, q.a, q.b, q.k, answers, 3 * x.documents, x.work.data(), x.work.size());
  }
  static uint64_t weighted(void *p, const Query &q, uint32_t *answers) {
    Archive &x = *(Archive *)p;
    return F.weighted(AT(x), x.documents, x.terms, q.chosen, q.size, q.k, q.allowance, answers, 2 * x.documents, x.work.data(), x.work.size());
  }
  static uint64_t boolean(void *p, const Query &q, uint32_t *answers) {
    Archive &x = *(Archive *)p;
    return F.boolean(AT(x), x.documents, x.terms, q.question, q.size, answers, x.documents);
  }
  static uint64_t rarest_first(void *p, const Query &q, uint32_t *order) { Archive &x = *(Archive *)p; return F.rarest_first(AT(x), x.terms, q.chosen, q.size, order); }
  static Contender contender(const char *name) {
    return {name, build, drop, bytes, {open, write, read, access, rank, rank_set, ranks, select, quantile, list, conjunction, greedy, probing, weighted, boolean, rarest_first}};
  }
};

bool is_tree(const Contender &c) { return c.ops[OPEN] && c.ops[WRITE]; }

// A reference for opening: every word of the archive read once.
uint64_t sum_words(void *p, const Query &, uint32_t *) {
  Archive &x = *(Archive *)p;
  uint64_t sum = 0, word;
  for (size_t i = 0; i + 8 <= x.len; i += 8) {
    memcpy(&word, x.bytes + i, 8);
    sum += word;
  }
  asm volatile("" : : "r"(sum));
  return 0;
}

#ifdef BEFORE
// Whether a listing of one document leaves the third number as it was.
bool lists_pairs(const Contender &c) {
  const uint32_t document = 0, length = 1;
  uint32_t answers[3] = {LENT, LENT, LENT};
  Query q = Query();
  q.b = 1;
  void *index = c.build({&document, 1, &length, 1, 1});
  c.ops[LIST](index, q, answers);
  c.drop(index);
  return answers[2] == LENT;
}
#endif

// The first is verified against; the second and third are what ratios are to.
const size_t SCAN = 0, TIGHT = 1, PLAIN = 2;
std::vector<Contender> contenders() {
  std::vector<Contender> all = {scan_contender(), Tree<tight_nopop>::contender("tight nopop"), Tree<plain_nopop>::contender("plain nopop"),
                                Tree<opened>::contender("ours"), Tree<checked>::contender("ours checked"), Tree<tight>::contender("tight"), Tree<plain>::contender("plain")};
#ifdef BEFORE
  all.push_back(Tree<before>::contender("before"));
  for (Op op : std::initializer_list<Op>{BEFORE_LACKS}) all.back().ops[op] = nullptr;
  all.back().no_places = lists_pairs(all.back());
#endif
#ifdef SDSL
  Contender two[2];
  sdsl_plain(two);
  all.insert(all.end(), two, two + 2);
  sdsl_popcnt(two);
  all.insert(all.end(), two, two + 2);
#endif
  return all;
}

// ---- data

uint64_t seed = 88172645463325252;
uint64_t next() {
  seed ^= seed << 13;
  seed ^= seed >> 7;
  seed ^= seed << 17;
  return seed * 0x2545f4914f6cdd1d;
}
uint32_t below(size_t m) { return (uint32_t)((next() >> 32) * m >> 32); }

enum Kind { UNIFORM, SKEWED, EQUAL };

// Skewed: document of rank r with weight 1 / r, the ranks dealt out at random.
Numbers entries_of(size_t n, uint32_t documents, Kind kind) {
  Numbers entries(n), dealt(documents);
  std::vector<double> upto(documents);
  double sum = 0;
  for (uint32_t i = 0; i < documents; i++) {
    dealt[i] = i;
    upto[i] = sum += 1.0 / (i + 1);
  }
  for (uint32_t i = documents; i > 1; i--) std::swap(dealt[i - 1], dealt[below(i)]);
  for (uint32_t &e : entries) {
    if (kind == UNIFORM) e = below(documents);
    else if (kind == EQUAL) e = dealt[0];
    else {
      double x = (double)(next() >> 11) / 9007199254740992.0 * sum;
      e = dealt[std::min<size_t>(documents - 1, (size_t)(std::lower_bound(upto.begin(), upto.end(), x) - upto.begin()))];
    }
  }
  return entries;
}

// W terms of as even lengths as can be.
Numbers even_lengths(size_t n, size_t terms) {
  Numbers lengths(terms);
  for (size_t t = 0; t < terms; t++) lengths[t] = (uint32_t)((t + 1) * n / terms - t * n / terms);
  return lengths;
}

// Rare and frequent terms: the length of term t is in proportion to 1 / (t + 1), rounded, and may be 0.
Numbers mixed_lengths(size_t n, size_t terms) {
  Numbers lengths(terms);
  double sum = 0, upto = 0;
  for (size_t t = 0; t < terms; t++) sum += 1.0 / (double)(t + 1);
  uint32_t start = 0;
  for (size_t t = 0; t < terms; t++) {
    upto += 1.0 / (double)(t + 1);
    uint32_t end = t + 1 == terms ? (uint32_t)n : (uint32_t)((double)n * upto / sum);
    lengths[t] = end - start;
    start = end;
  }
  return lengths;
}

struct Data {
  Numbers entries, lengths, starts;
  uint32_t documents;
  std::vector<void *> indexes;
  Library library;
  Data(const std::vector<Contender> &all, Numbers e, Numbers l, uint32_t N) : entries(e), lengths(l), starts(1, 0), documents(N) {
    library = {entries.data(), entries.size(), lengths.data(), lengths.size(), N};
    for (uint32_t size : lengths) starts.push_back(starts.back() + size);
    for (const Contender &c : all) indexes.push_back(c.build(library));
  }
  void drop(const std::vector<Contender> &all) {
    for (size_t c = 0; c < all.size(); c++) all[c].drop(indexes[c]);
  }
};

// ---- verification

const char *NAMES[OPS] = {"open", "write", "read", "access", "rank", "rank set", "rank each", "select", "quantile", "list", "conjunction", "greedy", "probing", "weighted", "boolean", "rarest first"};
size_t comparisons = 0;

void expect(bool right, const Contender &c, const char *what) {
  comparisons++;
  if (!right) fail("%s: wrong %s", c.name, what);
}

bool adds_range(Op op) { return op == LIST || op == GREEDY || op == PROBING; }
bool adds_terms(Op op) { return op == CONJUNCTION || op == WEIGHTED; }
bool takes_terms(Op op) { return adds_terms(op) || op == RAREST_FIRST; }
bool takes_set(Op op) { return op == RANK_SET || op == RANKS; }

// What a question adds up, each different term once. In a range the score is the count.
Sums sums_of(const Data &data, Op op, const Query &q) {
  Sums s(data.documents);
  if (adds_range(op)) s.add(data.entries, q.a, q.b, false);
  else
    for (uint32_t t : different(q.chosen, q.size)) s.add(data.entries, data.starts[t], data.starts[t + 1], true);
  return s;
}

// All that is written where there is no bound: of a range with first places.
Numbers full_answer(const Data &data, Op op, const Query &q) {
  Sums sums = sums_of(data, op, q);
  Numbers pairs = op == LIST || op == CONJUNCTION ? sums.common() : sums.list(q.k);
  return adds_range(op) ? with_first_places(pairs, data.entries, q.a, q.b) : pairs;
}

// How many numbers are written for each that the result counts: a document with its count and first place, a pair, a document or a term, or none.
size_t width(Op op) { return adds_range(op) ? 3 : adds_terms(op) ? 2 : op == BOOLEAN || op == RAREST_FIRST ? 1 : 0; }
size_t width(const Contender &c, Op op) { return adds_range(op) && c.no_places ? 2 : width(op); }

// What a contender leaves in a slice of this size, from what is right: the first places are left out where it has none.
Numbers left_by(const Contender &c, Op op, const Numbers &right, size_t documents, size_t size) {
  Numbers left(size, LENT);
  size_t wide = width(op), kept = width(c, op);
  for (size_t i = 0; i < documents; i++) std::copy_n(right.begin() + (long)(wide * i), kept, left.begin() + (long)(kept * i));
  return left;
}

// The documents that match a question.
Numbers matching_of(const Data &data, const Query &q) {
  Documents all;
  for (uint32_t d = 0; d < data.documents; d++) all.insert(d);
  auto under = [&](uint16_t t) { return Documents(data.entries.data() + data.starts[t], data.entries.data() + data.starts[t + 1]); };
  Documents found = matching(q.question, q.question + q.size, all, under);
  return Numbers(found.begin(), found.end());
}

// The numbers of a question are kept for the whole run.
typedef std::vector<uint16_t> Question;
Query ask(const Question &numbers) {
  static std::deque<Question> kept;
  kept.push_back(numbers);
  Query q = Query();
  q.question = kept.back().data();
  q.size = (uint32_t)numbers.size();
  return q;
}

// The documents of a set are kept too. What stands behind them is none, and so an empty set has an address.
Query ask_set(const Documents &set, size_t place) {
  static std::deque<Numbers> kept;
  kept.emplace_back(set.begin(), set.end());
  kept.back().push_back(NO_BOUND);
  Query q = Query();
  q.a = place;
  q.set = kept.back().data();
  q.size = (uint32_t)set.size();
  return q;
}

// So many different documents, or all where there are fewer.
Documents any_documents(const Data &data, size_t size) {
  Documents set;
  while (set.size() < std::min<size_t>(size, data.documents)) set.insert(below(data.documents));
  return set;
}

// So many neighbours, from a random one on.
Documents neighbours(const Data &data, size_t size) {
  size = std::min<size_t>(size, data.documents);
  Numbers run(size);
  std::iota(run.begin(), run.end(), below(data.documents - size + 1));
  return Documents(run.begin(), run.end());
}

// Those of a set that have no entry.
Documents absent(const Data &data, const Documents &set) {
  Documents none;
  for (uint32_t d : set)
    if (std::find(data.entries.begin(), data.entries.end(), d) == data.entries.end()) none.insert(d);
  return none;
}

// Any term, or that of a random entry.
uint32_t random_term(const Data &data, size_t turn) {
  if (turn % 3 == 0) return below(data.lengths.size());
  return (uint32_t)(std::upper_bound(data.starts.begin(), data.starts.end(), below(data.entries.size())) - data.starts.begin()) - 1;
}

// At most so many numbers with a reading, number by number: there is always room for what must follow, a word and the closing marks.
Question random_question(const Data &data, size_t most, size_t turn) {
  const uint32_t rare = turn % 2 ? 3 : 20;
  Question q;
  for (size_t open = 0, word_next = 1;;) {
    size_t more = most - q.size() - open;
    if (word_next) {
      if (more >= 2 && below(rare) == 0) {
        q.push_back(NOT);
      } else if (more >= 3 && open < 8 && below(rare) == 0) {
        q.push_back(OPENS);
        open++;
      } else {
        q.push_back((uint16_t)random_term(data, turn));
        word_next = 0;
      }
    } else if (open && (more < 2 || below(4) == 0)) {
      q.push_back(CLOSES);
      open--;
    } else if (more < 2 || (open == 0 && below(40) == 0)) {
      return q;
    } else {
      q.push_back(below(2) ? AND : OR);
      word_next = 1;
    }
  }
}

Query random_query(const Data &data, Op op, size_t turn) {
  size_t n = data.entries.size();
  if (op == BOOLEAN) return ask(random_question(data, turn % 4 ? 1 + below(64) : 64, turn));
  Query q = Query();
  q.k = turn % 5 == 0 ? data.documents : below(std::min<uint32_t>(data.documents, 120) + 1);
  q.allowance = NO_BOUND;
  if (op == ACCESS) q.a = below(n);
  if (op == RANK || op == SELECT) {
    q.x = turn % 3 ? data.entries[below(n)] : below(data.documents);
    q.a = turn == 0 ? n : below(n + 1);
    if (op == SELECT) q.a = 1 + below(turn % 2 ? 40 : n);
  }
  // Any terms, those of random entries, and some again. What stands behind the terms is none.
  if (takes_terms(op)) {
    q.size = 1 + below(8);
    for (size_t i = 0; i < 8; i++) q.chosen[i] = i >= q.size ? NO_BOUND : i && below(6) == 0 ? q.chosen[below(i)] : random_term(data, turn);
    if (op == WEIGHTED && turn % 7 == 3) q.k = NO_BOUND;
  }
  if (op == QUANTILE || op == LIST || op == GREEDY || op == PROBING) {
    q.a = turn % 4 ? below(n) : 0;
    q.b = turn % 4 == 0 ? n : turn % 4 == 1 ? std::min<size_t>(n, q.a + 1 + below(20)) : q.a + 1 + below(n - q.a);
    if (op != QUANTILE && turn % 16 == 7) q.b = q.a;
    q.x = below(q.b - q.a);
  }
  return q;
}

// The first terms of a question, four at most, given again: each beside itself, all of them behind all, and the first alone, eight times.
enum Again { BESIDE, BEHIND, ALONE };
Query again(Query q, Again way) {
  const Query given = q;
  uint32_t first = std::min(q.size, 4u);
  q.size = way == ALONE ? 8 : 2 * first;
  for (uint32_t i = 0; i < q.size; i++) q.chosen[i] = given.chosen[way == BESIDE ? i / 2 : way == BEHIND ? i % first : 0];
  std::fill(q.chosen + q.size, q.chosen + 8, NO_BOUND);
  return q;
}

// Under an allowance a search answers what the definition says, whatever the lent slices held; it writes its documents and 4 * N times 0, and no more.
void verify_bounded(const std::vector<Contender> &all, const Data &data, Op op, Query q, const Numbers &right, size_t size) {
  std::vector<Inner> nodes = sums_of(data, op, q).inner_nodes();
  uint32_t need = (uint32_t)(bounded_answer(nodes, NO_BOUND, right.data(), width(op), size) >> 32);
  for (uint32_t allowance : {NO_BOUND, below(60), 0u, need, need - (need != 0)}) {
    q.allowance = allowance;
    uint64_t answer = bounded_answer(nodes, allowance, right.data(), width(op), size);
    Numbers cleared(4 * data.documents + 4, LENT);
    std::fill(cleared.begin(), cleared.begin() + 4 * data.documents, 0);
    for (size_t c = 1; c < all.size(); c++) {
      if (!all[c].ops[op] || !is_tree(all[c])) continue;
      Numbers got(right.size(), LENT), &work = ((Archive *)data.indexes[c])->work;
      std::fill(work.begin(), work.end(), LENT);
      expect(all[c].ops[op](data.indexes[c], q, got.data()) == answer, all[c], "search with an allowance");
      expect(got == left_by(all[c], op, right, (uint32_t)answer, got.size()), all[c], "answers of a search with an allowance");
      expect(work == cleared, all[c], "work slice after a search");
    }
  }
}

void verify_query(const std::vector<Contender> &all, const Data &data, Op op, const Query &q, size_t turn) {
  Numbers lent(std::max<size_t>(3 * data.documents, 8) + 3, LENT), right = lent, got = lent;
  uint64_t expected = all[SCAN].ops[op](data.indexes[SCAN], q, right.data());
  for (size_t c = 1; c < all.size(); c++) {
    if (!all[c].ops[op]) continue;
    uint64_t r = all[c].ops[op](data.indexes[c], q, got.data());
    expect((uint32_t)r == (uint32_t)expected, all[c], NAMES[op]);
    size_t wide = width(all[c], op);
    Numbers pairs = wide == width(op) ? Numbers() : left_by(all[c], op, right, (uint32_t)expected, lent.size());
    const Numbers &left = wide == width(op) ? right : pairs;
    if (wide) expect(std::equal(left.begin(), left.begin() + (long)(wide * (uint32_t)expected), got.begin()), all[c], NAMES[op]);
    if (wide && !adds_terms(op)) expect(got == left, all[c], "rest of the answer slice");
    got = lent;
  }
  if (width(op) == 1) {
    Numbers full = op == BOOLEAN ? matching_of(data, q) : rarest_first_of(data.lengths, different(q.chosen, q.size));
    expect(expected == full.size(), all[SCAN], NAMES[op]);
    if (op == RAREST_FIRST) full.resize(8, 0);
    expect(std::equal(full.begin(), full.end(), right.begin()), all[SCAN], NAMES[op]);
  }
  if (takes_set(op)) expect(expected == count_of_set(data.entries, Documents(q.set, q.set + q.size), q.a), all[SCAN], NAMES[op]);
  if (adds_range(op) || adds_terms(op)) {
    Numbers full = full_answer(data, op, q);
    expect(expected == full.size() / width(op) && std::equal(full.begin(), full.end(), right.begin()), all[SCAN], NAMES[op]);
  }
  if ((op == GREEDY || op == WEIGHTED) && turn % 2 == 0) verify_bounded(all, data, op, q, right, (size_t)expected);
}

// How a walk over the places of a document begins and ends: its first entry, its last, the one behind that, which is missing, and one far behind.
void verify_places(const std::vector<Contender> &all, const Data &data, Query q) {
  Numbers places = places_of(data.entries, (uint32_t)q.x);
  size_t count = places.size() - 1;
  for (size_t j : {(size_t)1, std::max<size_t>(count, 1), count + 1, (size_t)NO_BOUND}) {
    q.a = j;
    for (size_t c = 0; c < all.size(); c++) expect(all[c].ops[SELECT](data.indexes[c], q, nullptr) == places[std::min(j - 1, count)], all[c], "walk over places");
  }
}

// Sets without a document, of one, of as many as can be (all of up to 64), of any number, of those among them without an entry, and of neighbours;
// each before the first place, any, or the end.
void verify_sets(const std::vector<Contender> &all, const Data &data, Op op, size_t turn) {
  size_t n = data.entries.size(), places[3] = {0, below(n + 1), n}, i = turn;
  Documents some = any_documents(data, 1 + below(64));
  for (const Documents &set : {Documents(), any_documents(data, 1), any_documents(data, 64), some, absent(data, some), neighbours(data, 1 + below(64)), neighbours(data, 64)})
    verify_query(all, data, op, ask_set(set, places[i++ % 3]), turn);
}

// A question of terms is asked with its terms given again, too; one for a place also where the document's places end; one of a set with sets of many kinds.
void verify_op(const std::vector<Contender> &all, const Data &data, Op op, size_t turn) {
  if (takes_set(op)) return verify_sets(all, data, op, turn);
  Query q = random_query(data, op, turn);
  verify_query(all, data, op, q, turn);
  if (op == SELECT) verify_places(all, data, q);
  if (!takes_terms(op)) return;
  for (Again way : {BESIDE, BEHIND, ALONE}) verify_query(all, data, op, again(q, way), turn);
}

// The archives are the same bytes, give the library back, and with a bit or a byte changed each contender refuses them by the same number.
void verify_archives(const std::vector<Contender> &all, const Data &data) {
  Archive &first = *(Archive *)data.indexes[TIGHT];
  size_t at = below(first.len);
  uint8_t change = (uint8_t)(1 + below(255));
  uint64_t refusal = 0;
  for (size_t c = TIGHT; c < all.size(); c++) {
    if (!is_tree(all[c])) continue;
    Archive &x = *(Archive *)data.indexes[c];
    Query q = Query();
    expect(x.len == first.len && !memcmp(x.bytes, first.bytes, x.len), all[c], "archive");
    expect(all[c].ops[OPEN](&x, q, nullptr) == 0, all[c], "open");
    all[c].ops[READ](&x, q, nullptr);
    expect(x.read_entries == data.entries && x.read_lengths == data.lengths, all[c], "read");
    x.bytes[at] ^= change;
    uint64_t r = all[c].ops[OPEN](&x, q, nullptr);
    if (c == TIGHT) refusal = r;
    expect(r == refusal, all[c], "open of a changed archive");
    x.bytes[at] ^= change;
  }
}

void verify_one(const std::vector<Contender> &all, size_t n, uint32_t documents, const Numbers &lengths, Kind kind, size_t turns) {
  Data data(all, entries_of(n, documents, kind), lengths, documents);
  for (size_t turn = 0; turn < turns; turn++) {
    verify_archives(all, data);
    for (int op = ACCESS; op < OPS; op++) verify_op(all, data, (Op)op, turn);
  }
  data.drop(all);
}

// Questions of the small library, whose terms have the documents 0 1 3, none, and 0 1 2 3.
void verify_readings(const std::vector<Contender> &all, const Data &data) {
  const struct { Question question; Numbers documents; } cases[] = {
    {{2, AND, NOT, 0}, {2}}, {{2, AND, NOT, 0, OR, 1}, {2}}, {{NOT, 1}, {0, 1, 2, 3}}, {{NOT, 0}, {2}}, {{NOT, NOT, 0}, {0, 1, 3}},
    {{0, OR, 2, AND, 1}, {0, 1, 3}}, {{OPENS, 0, OR, 2, CLOSES, AND, 1}, {}}, {{NOT, 0, OR, 0}, {0, 1, 2, 3}}, {{NOT, OPENS, 0, OR, 0, CLOSES}, {2}},
  };
  for (auto &one : cases) {
    verify_query(all, data, BOOLEAN, ask(one.question), 0);
    expect(matching_of(data, ask(one.question)) == one.documents, all[SCAN], "reading");
  }
}

// Sets of the small library, whose entries are 3 1 0 3 2 1 3 0.
void verify_counts(const std::vector<Contender> &all, const Data &data) {
  const struct { Documents set; size_t place; uint32_t count; } cases[] = {
    {{}, 8, 0}, {{3}, 6, 2}, {{1, 3}, 4, 3}, {{0, 2}, 2, 0}, {{0, 2}, 5, 2}, {{0, 1, 3}, 8, 7}, {{0, 1, 2, 3}, 7, 7},
  };
  for (auto &one : cases) {
    for (Op op : {RANK_SET, RANKS}) verify_query(all, data, op, ask_set(one.set, one.place), 0);
    expect(count_of_set(data.entries, one.set, one.place) == one.count, all[SCAN], "count");
  }
}

// Ranges of the small library, with the first places: counted from entry 0, and not from the range's start.
void verify_first_places(const std::vector<Contender> &all, const Data &data) {
  const struct { Op op; size_t a, b; uint32_t k; Numbers answers; } cases[] = {
    {LIST, 0, 8, 0, {0, 2, 2, 1, 2, 1, 2, 1, 4, 3, 3, 0}}, {LIST, 3, 8, 0, {0, 1, 7, 1, 1, 5, 2, 1, 4, 3, 2, 3}}, {LIST, 5, 5, 0, {}}, {LIST, 7, 8, 0, {0, 1, 7}},
    {GREEDY, 0, 8, 2, {3, 3, 0, 0, 2, 2}}, {GREEDY, 3, 8, 2, {3, 2, 3, 0, 1, 7}}, {PROBING, 3, 8, 2, {3, 2, 3, 0, 1, 7}}, {PROBING, 1, 4, 3, {0, 1, 2, 1, 1, 1, 3, 1, 3}},
  };
  for (auto &one : cases) {
    Query q = Query();
    q.a = one.a;
    q.b = one.b;
    q.k = one.k;
    q.allowance = NO_BOUND;
    verify_query(all, data, one.op, q, 0);
    expect(full_answer(data, one.op, q) == one.answers, all[SCAN], "first places");
  }
}

// Terms of the small library, which have 3, 0 and 5 entries.
void verify_orders(const std::vector<Contender> &all, const Data &data) {
  const struct { Numbers terms, order; } cases[] = {
    {{0}, {0}}, {{2, 0}, {0, 2}}, {{0, 1}, {1, 0}}, {{2, 0, 1}, {1, 0, 2}}, {{2, 2, 0, 2}, {0, 2}}, {{1, 2, 1, 0, 0, 2, 1, 0}, {1, 0, 2}}, {{2, 2, 2, 2, 2, 2, 2, 2}, {2}},
  };
  for (auto &one : cases) {
    Query q = Query();
    q.size = (uint32_t)one.terms.size();
    std::copy(one.terms.begin(), one.terms.end(), q.chosen);
    verify_query(all, data, RAREST_FIRST, q, 0);
    expect(rarest_first_of(data.lengths, different(q.chosen, q.size)) == one.order, all[SCAN], "order");
  }
}

// The small library of docs/FORMAT.md, byte by byte.
void verify_small(const std::vector<Contender> &all) {
  const uint8_t bytes[74] = {1, 0, 0, 0, 8, 0, 0, 0, 4, 0, 0, 0, 3, 0, 0, 0, 40, 0, 0, 0, 24, 0, 0, 0, 64, 0, 0, 0, 8, 0, 0, 0, 72, 0, 0, 0, 2,
                             0, 0, 0, 0, 0, 0, 0, 3, 0, 0, 0, 3, 0, 0, 0, 0, 0, 0, 0, 3, 0, 0, 0, 5, 0, 0, 0, 0, 0, 0, 0, 0, 0, 0, 0, 0x59, 0xb5};
  Data data(all, {3, 1, 0, 3, 2, 1, 3, 0}, {3, 0, 5}, 4);
  for (size_t c = TIGHT; c < all.size(); c++)
    if (is_tree(all[c])) expect(((Archive *)data.indexes[c])->len == 74 && !memcmp(((Archive *)data.indexes[c])->bytes, bytes, 74), all[c], "small library");
  verify_readings(all, data);
  verify_counts(all, data);
  verify_first_places(all, data);
  verify_orders(all, data);
  for (size_t turn = 0; turn < 200; turn++)
    for (int op = ACCESS; op < OPS; op++) verify_op(all, data, (Op)op, turn);
  data.drop(all);
}

void verify(const std::vector<Contender> &all) {
  auto lengths = [](size_t n, size_t terms) { return below(2) ? even_lengths(n, terms) : mixed_lengths(n, terms); };
  verify_small(all);
  for (size_t n : {1, 2, 63, 64, 65, 511, 512, 513, 1000, 1024, 1025, 4096, 5000})
    for (uint32_t documents : {1, 2, 3, 7, 64, 100, 1000, 4096})
      for (Kind kind : {UNIFORM, SKEWED, EQUAL}) verify_one(all, n, documents, lengths(n, 1 + below(40)), kind, 12);
  for (int turn = 0; turn < 60; turn++) {
    size_t n = 1 + below(3000);
    verify_one(all, n, 1 + below(below(2) ? 4096 : 60), lengths(n, 1 + below(200)), turn % 2 ? SKEWED : UNIFORM, 16);
  }
  for (Kind kind : {UNIFORM, SKEWED}) {
    verify_one(all, 65535, 4096, even_lengths(65535, 4096), kind, 32);
    verify_one(all, 65535, 4096, mixed_lengths(65535, 4096), kind, 32);
    verify_one(all, 65535, 4096, even_lengths(65535, 16), kind, 16);
    verify_one(all, 65024, 4000, even_lengths(65024, 100), kind, 16);
  }
  printf("verified: %zu comparisons, %zu contenders\n", comparisons, all.size());
}

// ---- timing

uint64_t __attribute__((noinline)) batch(op_fn *f, void *index, const Query *q, size_t count, size_t width, uint32_t *answers) {
  uint64_t sum = 0;
  for (size_t i = 0; i < count; i++) {
    uint32_t r = (uint32_t)f(index, q[i], answers);
    sum += r;
    if (width && r) sum += answers[width * r - 1] + 3 * (uint64_t)answers[r / 2 * width];
  }
  return sum;
}

const size_t QUERIES = 2048, PASSES = 3;

// One operation on one set of queries, for every contender that has it. The rounds of a cell are spread over the passes of the whole run.
struct Cell {
  std::string data, name, range;
  Op op;
  uint32_t k;
  double bytes; // read once by the operation, or 0
  std::vector<Contender> all;
  std::vector<void *> indexes;
  std::vector<Query> queries;
  size_t count, rounds;
  std::vector<size_t> warm;
  std::vector<std::vector<double>> times;
  Numbers answers;

  double one(size_t c, const Query *q, size_t size, uint64_t *sum) {
    double start = now();
    *sum = batch(all[c].ops[op], indexes[c], q, size, width(all[c], op), answers.data());
    return now() - start;
  }

  // So many queries that the tight peer takes about 0.4 ms, unless another takes very long, but no fewer than `least`; and so many rounds that the time is used up.
  void plan(double seconds, size_t least) {
    answers.resize(3 * 4096 + 3);
    times.assign(all.size(), {});
    uint64_t sum = 0, first = 0;
    for (count = 1; 2 * count <= queries.size(); count *= 2) {
      double longest = 0, reference = one(TIGHT, queries.data(), count, &sum);
      for (size_t c = 0; c < all.size(); c++)
        if (all[c].ops[op]) longest = std::max(longest, one(c, queries.data(), count, &sum));
      if (count >= least && (reference >= 0.4e6 || longest >= 10e6)) break;
    }
    double round = 0;
    for (size_t c = 0; c < all.size(); c++) {
      warm.push_back(0);
      if (!all[c].ops[op]) continue;
      double time = one(c, queries.data(), count, &sum);
      if (round == 0) first = sum;
      if (sum != first && width(all[c], op) == width(op)) fail("%s: %s differs", all[c].name, name.c_str());
      warm[c] = std::min<size_t>(count, (size_t)(1e5 / (time / (double)count)));
      round += time * (1 + (double)warm[c] / (double)count);
    }
    rounds = (size_t)std::max(4.0, std::min(101.0, seconds * 1e9 / PASSES / round));
  }

  void pass() {
    uint64_t sum;
    for (size_t r = 0; r < rounds; r++)
      for (size_t i = 0; i < all.size(); i++) {
        size_t c = (i + 3 * r) % all.size();
        if (!all[c].ops[op]) continue;
        if (warm[c]) one(c, queries.data() + count - warm[c], warm[c], &sum);
        times[c].push_back(one(c, queries.data(), count, &sum) / (double)count);
      }
  }

  std::vector<double> ratios(size_t c, size_t to) const {
    std::vector<double> v;
    for (size_t r = 0; r < times[c].size(); r++) v.push_back(times[c][r] / times[to][r]);
    return v;
  }
};

const char *RANGES[4] = {"all", "1/16", "term", "mixed"};
const int MIXED = 3;
const size_t ENTRIES = 65535;
const uint32_t DOCUMENTS = 4096;

struct Set {
  std::string name;
  Data *terms;   // 4,096 terms of 16 entries
  Data *volumes; // 16 terms of a sixteenth
  Data *mixed;   // 4,096 terms, rare and frequent
  std::vector<Cell> cells;
};

Query range_query(const Data &data, int range) {
  size_t n = data.entries.size();
  Query q = Query();
  q.allowance = NO_BOUND;
  q.b = n;
  if (range == 1) {
    q.a = below(n - n / 16);
    q.b = q.a + n / 16;
  } else if (range == 2) {
    uint32_t t = below(data.lengths.size());
    q.a = data.starts[t];
    q.b = data.starts[t + 1];
  }
  return q;
}

// One term of each band of ranks, from the most frequent to the rarest: term i of s has the rank W^((i + u) / s), u random below 1.
Query mixed_query(const Data &data, uint32_t size) {
  Query q = Query();
  q.allowance = NO_BOUND;
  q.size = size;
  double terms = (double)data.lengths.size();
  for (uint32_t i = 0; i < size; i++) q.chosen[i] = (uint32_t)(pow(terms, (i + (double)(next() >> 11) / 9007199254740992.0) / size) - 1);
  return q;
}

// So many terms, no two equal.
Query different_query(const Data &data, uint32_t size) {
  Query q = Query();
  while (q.size < size) {
    uint32_t t = below(data.lengths.size()), *end = q.chosen + q.size;
    q.size += std::find(q.chosen, end, t) == end;
    *end = t;
  }
  return q;
}

// As typed by wet fingers: the terms of a question in any order, each once or more, eight in all.
Query typed_wet(Query q) {
  for (uint32_t size = q.size; q.size < 8; q.size++) q.chosen[q.size] = q.chosen[below(size)];
  for (uint32_t i = 8; i > 1; i--) std::swap(q.chosen[i - 1], q.chosen[below(i)]);
  return q;
}

// So many words, no two equal as long as there are terms: of 16 terms each comes before one comes again.
Question words_of(const Data &data, size_t size) {
  Question terms(data.lengths.size()), words;
  std::iota(terms.begin(), terms.end(), 0);
  while (words.size() < size) {
    size_t at = words.size() % terms.size();
    std::swap(terms[at], terms[at + below(terms.size() - at)]);
    words.push_back(terms[at]);
  }
  return words;
}

// Words with an and or an or between them, by chance. With not: it stands before every second word from a random one on, as far as 64 numbers go.
Query boolean_query(const Data &data, size_t size, bool with_not) {
  size_t nots = with_not ? std::min((size + 1) / 2, 64 - (2 * size - 1)) : 0, turn = below(size);
  Question numbers;
  for (uint16_t word : words_of(data, size)) {
    if (!numbers.empty()) numbers.push_back(below(2) ? AND : OR);
    if (turn % 2 == 0 && turn / 2 < nots) numbers.push_back(NOT);
    numbers.push_back(word);
    turn = (turn + 1) % size;
  }
  return ask(numbers);
}

// `of`: how many terms, or what else the name has. A batch has no fewer questions than `least`.
template <class Make> void add(Set &set, const std::vector<Contender> &all, const char *filter, double seconds, Op op, int range, uint32_t k, const std::string &of, size_t least, Make make) {
  const Data &data = range == MIXED ? *set.mixed : (op == CONJUNCTION || op == BOOLEAN) && range == 1 ? *set.volumes : *set.terms;
  std::string name = NAMES[op] + of;
  if (range >= 0) name += std::string(" ") + RANGES[range];
  if (k) name += " k=" + std::to_string(k);
  if (filter && (set.name + " " + name).find(filter) == std::string::npos) return;
  Cell c;
  c.data = set.name;
  c.name = name;
  c.range = range >= 0 ? RANGES[range] : "";
  c.op = op;
  c.k = k;
  c.bytes = op == OPEN ? (double)((Archive *)data.indexes[TIGHT])->len : 0;
  c.all = all;
  c.indexes = data.indexes;
  if (op == OPEN) {
    Contender words = {"sum of words", nullptr, nullptr, nullptr, {sum_words}};
    c.all.push_back(words);
    c.indexes.push_back(data.indexes[TIGHT]);
  }
  for (size_t i = 0; i < QUERIES; i++) c.queries.push_back(make(data));
  c.plan(seconds, least);
  set.cells.push_back(c);
}

// The order of two or eight different terms, each as likely, and of eight as typed by wet fingers. A batch has all questions, since
// the processor learns the branches of fewer. The seed is put back, as for repeated terms.
void add_orders(Set &set, const std::vector<Contender> &all, const char *filter, double seconds) {
  uint64_t from = seed;
  auto cell = [&](const char *of, auto make) {
    seed = from;
    add(set, all, filter, seconds, RAREST_FIRST, MIXED, 0, of, QUERIES, make);
  };
  cell(" of 2", [](const Data &d) { return different_query(d, 2); });
  cell(" of 8", [](const Data &d) { return different_query(d, 8); });
  cell(" of 8 repeated", [](const Data &d) { return typed_wet(different_query(d, 2 + below(2))); });
  seed = from;
}

void add_cells(Set &set, const std::vector<Contender> &all, const char *filter, double seconds) {
  // Questions of mixed terms differ much in cost, and so do those of repeated terms and of sets: a batch has several.
  const size_t several = 16;
  auto cell = [&](Op op, int range, uint32_t k, uint32_t size, auto make) {
    add(set, all, filter, seconds, op, range, k, size ? " of " + std::to_string(size) : "", range == MIXED ? several : 1, make);
  };
  // Eight terms, two or three of them different. The seed is put back: the other cells have the questions that they have without these.
  auto repeated = [&](Op op, int range, uint32_t k, auto make) {
    uint64_t from = seed;
    add(set, all, filter, seconds, op, range, k, " of 8 repeated", several, [=](const Data &d) {
      Query q = typed_wet(make(d, 2 + below(2)));
      q.k = k;
      return q;
    });
    seed = from;
  };
  auto none = [](const Data &) { return Query(); };
  cell(OPEN, -1, 0, 0, none);
  cell(WRITE, -1, 0, 0, none);
  cell(READ, -1, 0, 0, none);
  cell(ACCESS, -1, 0, 0, [](const Data &d) { Query q = Query(); q.a = below(d.entries.size()); return q; });
  cell(RANK, -1, 0, 0, [](const Data &d) { Query q = Query(); q.x = d.entries[below(d.entries.size())]; q.a = below(d.entries.size() + 1); return q; });
  // The same sets in one question and by one rank a member. The seed is put back, as for repeated terms.
  auto of_set = [&](const std::string &of, auto make) {
    uint64_t from = seed;
    for (Op op : {RANK_SET, RANKS}) {
      seed = from;
      add(set, all, filter, seconds, op, -1, 0, of, several, [=](const Data &d) {
        Documents members = make(d);
        return ask_set(members, below(d.entries.size() + 1));
      });
    }
    seed = from;
  };
  for (size_t size : {1, 8, 64})
    of_set(" of " + std::to_string(size), [=](const Data &d) { return any_documents(d, size); });
  of_set(" of 64 neighbours", [](const Data &d) { return neighbours(d, 64); });
  // The occurrence is there: as many as before a random place, and one more that may be at it.
  uint64_t before = seed;
  cell(SELECT, -1, 0, 0, [](const Data &d) {
    Query q = Query();
    size_t place = below(d.entries.size());
    q.x = d.entries[place];
    q.a = (size_t)std::count(d.entries.begin(), d.entries.begin() + (long)place + 1, (uint32_t)q.x);
    return q;
  });
  // It is missing: of the same documents the one behind the last, with which a walk over their places ends. The seed is put back for the others.
  uint64_t after = seed;
  seed = before;
  add(set, all, filter, seconds, SELECT, -1, 0, " missing", 1, [](const Data &d) {
    Query q = Query();
    q.x = d.entries[below(d.entries.size())];
    q.a = 1 + (size_t)std::count(d.entries.begin(), d.entries.end(), (uint32_t)q.x);
    return q;
  });
  seed = after;
  for (int range = 0; range < 3; range++)
    cell(QUANTILE, range, 0, 0, [=](const Data &d) { Query q = range_query(d, range); q.x = below(q.b - q.a); return q; });
  for (int range = 0; range < 3; range++)
    cell(LIST, range, 0, 0, [=](const Data &d) { return range_query(d, range); });
  for (int range = 1; range < 3; range++)
    for (uint32_t size : {2, 4, 8})
      cell(CONJUNCTION, range, 0, size, [=](const Data &d) {
        Query q = Query();
        q.size = size;
        for (size_t i = 0; i < size; i++) q.chosen[i] = below(d.lengths.size());
        return q;
      });
  repeated(CONJUNCTION, 1, 0, different_query);
  for (Op op : {GREEDY, PROBING})
    for (int range = 0; range < 3; range++)
      for (uint32_t k : {10u, 100u, DOCUMENTS})
        cell(op, range, k, 0, [=](const Data &d) { Query q = range_query(d, range); q.k = k; return q; });
  for (uint32_t size : {2, 8}) {
    uint64_t from = seed;
    for (uint32_t k : {10u, DOCUMENTS}) {
      seed = from; // the same terms for every k
      cell(WEIGHTED, MIXED, k, size, [=](const Data &d) { Query q = mixed_query(d, size); q.k = k; return q; });
    }
  }
  repeated(WEIGHTED, MIXED, 10, mixed_query);
  // The same words and marks with not and without. The seed is put back, as for repeated terms.
  auto boolean = [&](int range, const std::string &of, auto make) {
    uint64_t from = seed;
    add(set, all, filter, seconds, BOOLEAN, range, 0, of, 4, make);
    seed = from;
  };
  for (int range = 1; range < 3; range++)
    for (size_t size : {1, 4, 32})
      for (bool with_not : {false, true})
        boolean(range, " of " + std::to_string(size) + (with_not ? " with not" : ""), [=](const Data &d) { return boolean_query(d, size, with_not); });
  // All documents but one or two.
  boolean(MIXED, " not rare", [](const Data &d) { return ask({NOT, (uint16_t)(d.lengths.size() - 1 - below(256))}); });
  add_orders(set, all, filter, seconds);
}

void print_set(const Set &set, const std::vector<Contender> &all) {
  printf("\n## %s: n = %zu, N = %u\n\nns an operation, then the ratio to %s and to %s (medians; below 1 is faster)\n\n| |", set.name.c_str(), ENTRIES, DOCUMENTS, all[TIGHT].name, all[PLAIN].name);
  for (const Contender &c : all) printf(" %s |", c.name);
  printf("\n|---|");
  for (size_t c = 0; c < all.size(); c++) printf("--:|");
  printf("\n| bytes of the index |");
  for (size_t c = 0; c < all.size(); c++) printf(" %zu |", all[c].bytes(set.terms->indexes[c]));
  for (const Cell &cell : set.cells) {
    printf("\n| %s |", cell.name.c_str());
    for (size_t c = 0; c < all.size(); c++)
      if (cell.times[c].empty()) printf(" |");
      else printf(" %.*f (%.2f, %.2f) |", median(cell.times[c]) < 100 ? 1 : 0, median(cell.times[c]), median(cell.ratios(c, TIGHT)), median(cell.ratios(c, PLAIN)));
  }
  printf("\n");
  for (const Cell &cell : set.cells)
    if (cell.bytes > 0)
      for (size_t c = 0; c < cell.all.size(); c++)
        if (!cell.times[c].empty()) printf("%s %s, %.0f bytes: %.1f GB/s\n", cell.name.c_str(), cell.all[c].name, cell.bytes, cell.bytes / median(cell.times[c]));
}

void write_csv(const std::vector<Set> &sets, const char *path) {
  FILE *f = fopen(path, "w");
  if (!f) fail("%s cannot be written%s", path, "");
  fprintf(f, "data,cell,operation,range,k,contender,index_bytes,rounds,median_ns,p10_ns,p90_ns,ratio_tight_nopop,ratio_plain_nopop,gb_per_s\n");
  for (const Set &set : sets)
    for (const Cell &cell : set.cells)
      for (size_t c = 0; c < cell.all.size(); c++) {
        const std::vector<double> &t = cell.times[c];
        if (t.empty()) continue;
        fprintf(f, "%s,%s,%s,%s,%u,%s,%zu,%zu,%.2f,%.2f,%.2f,%.4f,%.4f,%.2f\n", cell.data.c_str(), cell.name.c_str(), NAMES[cell.op], cell.range.c_str(), cell.k, cell.all[c].name,
                cell.all[c].bytes ? cell.all[c].bytes(cell.indexes[c]) : 0, t.size(), median(t), at_part(t, 0.1), at_part(t, 0.9), median(cell.ratios(c, TIGHT)), median(cell.ratios(c, PLAIN)),
                cell.bytes / median(t));
      }
  fclose(f);
}

// How far an allowance leads: the documents named and the openings used, of the whole, for each k.
void write_openings(const std::vector<Set> &sets, const std::vector<Contender> &all, const char *path) {
  FILE *f = fopen(path, "w");
  if (!f) fail("%s cannot be written%s", path, "");
  fprintf(f, "data,k,allowance,openings,documents,spent\n");
  Numbers answers(3 * DOCUMENTS);
  for (const Set &set : sets)
    for (uint32_t k : {10u, 100u, DOCUMENTS})
      for (uint32_t allowance = 1; allowance <= 8192; allowance *= 2) {
        Query q = range_query(*set.terms, 0);
        q.k = k;
        q.allowance = allowance;
        uint64_t r = all[TIGHT].ops[GREEDY](set.terms->indexes[TIGHT], q, answers.data());
        fprintf(f, "%s,%u,%u,%u,%u,%u\n", set.name.c_str(), k, allowance, (uint32_t)(r >> 32) & 0x7fffffff, (uint32_t)r, (uint32_t)(r >> 63));
      }
  fclose(f);
}

void time_all(const std::vector<Contender> &all, double seconds, const char *csv, const char *openings, const char *filter) {
  std::vector<Set> sets;
  for (Kind kind : {UNIFORM, SKEWED}) {
    Numbers entries = entries_of(ENTRIES, DOCUMENTS, kind);
    auto data = [&](const Numbers &lengths) { return new Data(all, entries, lengths, DOCUMENTS); };
    sets.push_back({kind == UNIFORM ? "uniform" : "skewed", data(even_lengths(ENTRIES, 4096)), data(even_lengths(ENTRIES, 16)), data(mixed_lengths(ENTRIES, 4096)), {}});
    add_cells(sets.back(), all, filter, seconds);
  }
  for (size_t p = 0; p < PASSES; p++)
    for (Set &set : sets)
      for (Cell &cell : set.cells) cell.pass();
  for (const Set &set : sets) print_set(set, all);
  write_csv(sets, csv);
  write_openings(sets, all, openings);
}
}

int main(int argc, char **argv) {
  cpu_set_t one;
  CPU_ZERO(&one);
  CPU_SET(sched_getcpu(), &one);
  sched_setaffinity(0, sizeof one, &one);
  std::vector<Contender> all = contenders();
  if (argc == 2 && !strcmp(argv[1], "verify")) {
    verify(all);
    return 0;
  }
  if (argc >= 5 && !strcmp(argv[1], "time")) {
    time_all(all, atof(argv[2]), argv[3], argv[4], argc > 5 ? argv[5] : nullptr);
    return 0;
  }
  fprintf(stderr, "run verify | run time SECONDS CSV OPENINGS [FILTER]\n");
  return 2;
}
