// sdsl-lite's wavelet trees: wt_int as it comes, and with rank_support_v5 and no select index, which has about the size of our rows and samples.
// SDSL_ENTRY names the one function that the harness sees, SDSL_SUFFIX ends the contenders' names.
#include "contender.h"
#include "question.h"
#include "terms.h"
#include <algorithm>
#include <sdsl/wavelet_trees.hpp>
#include <sdsl/wt_algorithm.hpp>
#include <vector>

namespace {
// INDEXED: whether the tree has an index for select.
template <class Tree, bool INDEXED> struct Peer {
  struct Waiting {
    uint64_t key; // the count, then the start reversed
    typename Tree::node_type node;
    sdsl::range_type range;
    bool operator<(const Waiting &w) const { return key < w.key; }
  };
  struct Index {
    Tree tree;
    uint32_t documents;
    size_t n;
    std::vector<uint32_t> starts, total, heap;
    std::vector<typename Tree::value_type> symbols;
    std::vector<typename Tree::size_type> below, upto;
    std::vector<Waiting> queue;
    std::vector<bool> seen;
  };

  static void *build(const Library &l) {
    Index *x = new Index;
    sdsl::int_vector<> v(l.n, 0, 16);
    for (size_t i = 0; i < l.n; i++) v[i] = l.entries[i];
    sdsl::construct_im(x->tree, v);
    x->documents = l.documents;
    x->n = l.n;
    x->total.resize(l.documents);
    for (size_t i = 0; i < l.n; i++) x->total[l.entries[i]]++;
    x->starts.assign(1, 0);
    for (size_t t = 0; t < l.terms; t++) x->starts.push_back(x->starts.back() + l.lengths[t]);
    x->symbols.resize(l.documents + 1);
    x->below.resize(l.documents + 1);
    x->upto.resize(l.documents + 1);
    x->queue.reserve(l.documents + 2);
    x->heap.reserve(l.documents + 2);
    x->seen.resize(l.documents);
    return x;
  }
  static void drop(void *p) { delete (Index *)p; }
  static size_t bytes(void *p) { return sdsl::size_in_bytes(((Index *)p)->tree); }

  static uint64_t access(void *p, const Query &q, uint32_t *) { return ((Index *)p)->tree[q.a]; }
  static uint64_t rank(void *p, const Query &q, uint32_t *) { return ((Index *)p)->tree.rank(q.a, q.x); }
  static uint64_t ranks(void *p, const Query &q, uint32_t *) {
    uint64_t c = 0;
    for (size_t i = 0; i < q.size; i++) c += ((Index *)p)->tree.rank(q.a, q.set[i]);
    return c;
  }
  // sdsl's select wants the occurrence to be there. Where it is, a table says so and spares the rank; the table is no part of sdsl's index, so
  // that it is missing is found by its rank.
  static uint64_t select(void *p, const Query &q, uint32_t *) {
    Index &x = *(Index *)p;
    bool there = q.a <= x.total[q.x] || q.a <= x.tree.rank(x.n, q.x);
    return there ? x.tree.select(q.a, q.x) : x.n;
  }
  static uint64_t quantile(void *p, const Query &q, uint32_t *) {
    return sdsl::quantile_freq(((Index *)p)->tree, q.a, q.b - 1, q.x).first;
  }
  // Where d first stands from a to b, which it does, with so many entries before a. Without an index select goes through the rows from their start: then
  // the range is halved by rank.
  static uint32_t first_place(const Tree &tree, size_t a, size_t b, uint32_t d, size_t before) {
    if (INDEXED) return (uint32_t)tree.select(before + 1, d);
    while (b - a > 1) {
      size_t middle = (a + b) / 2;
      if (tree.rank(middle, d) == before) a = middle;
      else b = middle;
    }
    return (uint32_t)a;
  }
  // The rank before the range comes with the symbols.
  static uint64_t list(void *p, const Query &q, uint32_t *answers) {
    Index &x = *(Index *)p;
    if (q.a == q.b) return 0;
    typename Tree::size_type found = 0;
    sdsl::interval_symbols(x.tree, q.a, q.b, found, x.symbols, x.below, x.upto);
    for (size_t i = 0; i < found; i++) {
      uint32_t d = (uint32_t)x.symbols[i];
      answers[3 * i] = d;
      answers[3 * i + 1] = (uint32_t)(x.upto[i] - x.below[i]);
      answers[3 * i + 2] = first_place(x.tree, q.a, q.b, d, x.below[i]);
    }
    return found;
  }
  static uint64_t conjunction(void *p, const Query &q, uint32_t *answers) {
    Index &x = *(Index *)p;
    uint32_t terms[8], size = each_once(q.chosen, q.size, terms);
    std::vector<sdsl::range_type> ranges(size);
    for (size_t i = 0; i < size; i++) {
      uint32_t a = x.starts[terms[i]], b = x.starts[terms[i] + 1];
      if (a == b) return 0;
      ranges[i] = {{a, b - 1u}};
    }
    size_t found = 0;
    for (auto &e : sdsl::intersect(x.tree, ranges)) {
      answers[2 * found] = (uint32_t)e.first;
      answers[2 * found++ + 1] = (uint32_t)e.second;
    }
    return found;
  }
  static uint64_t greedy(void *p, const Query &q, uint32_t *answers) {
    Index &x = *(Index *)p;
    const Tree &tree = x.tree;
    auto &queue = x.queue;
    uint64_t listed = 0;
    auto wait = [&](const typename Tree::node_type &node, const sdsl::range_type &range) {
      uint64_t start = node.sym << (tree.max_level - node.level);
      queue.push_back({(uint64_t)(range[1] + 1 - range[0]) << 32 | (0xffffffff - start), node, range});
      std::push_heap(queue.begin(), queue.end());
    };
    queue.clear();
    if (q.a != q.b) wait(tree.root(), {{q.a, q.b - 1}});
    while (!queue.empty() && listed < q.k) {
      std::pop_heap(queue.begin(), queue.end());
      Waiting w = queue.back();
      queue.pop_back();
      if (tree.is_leaf(w.node)) {
        uint32_t d = (uint32_t)tree.sym(w.node);
        answers[3 * listed] = d;
        answers[3 * listed + 1] = (uint32_t)(w.key >> 32);
        answers[3 * listed++ + 2] = first_place(tree, q.a, q.b, d, tree.rank(q.a, d));
        continue;
      }
      auto nodes = tree.expand(w.node);
      auto ranges = tree.expand(w.node, w.range);
      for (int i = 0; i < 2; i++)
        if (!sdsl::empty(ranges[i])) wait(nodes[i], ranges[i]);
    }
    return listed;
  }
  static uint64_t probing(void *p, const Query &q, uint32_t *answers) {
    Index &x = *(Index *)p;
    auto &heap = x.heap;
    size_t m = q.b - q.a, step = 1, met = 0, k = std::min<size_t>(q.k, std::min<size_t>(x.documents, m));
    auto after = [](uint32_t s, uint32_t t) { return s > t; };
    heap.clear();
    std::fill(x.seen.begin(), x.seen.end(), false);
    while (step < m) step *= 2;
    for (bool more = k != 0; more; step /= 2) {
      for (size_t r = step; r <= m; r += 2 * step) {
        auto found = sdsl::quantile_freq(x.tree, q.a, q.b - 1, r - 1);
        if (x.seen[found.first]) continue;
        x.seen[found.first] = true;
        met += found.second;
        uint32_t key = (uint32_t)(found.second << 16 | (65535 - found.first));
        if (heap.size() == k) {
          if (key < heap[0]) continue;
          std::pop_heap(heap.begin(), heap.end(), after);
          heap.pop_back();
        }
        heap.push_back(key);
        std::push_heap(heap.begin(), heap.end(), after);
      }
      more = met != m && step != 1 && !(heap.size() == k && heap[0] >> 16 >= step);
    }
    std::sort(heap.begin(), heap.end(), after);
    for (size_t i = 0; i < heap.size(); i++) {
      uint32_t d = 65535 - (heap[i] & 65535);
      answers[3 * i] = d;
      answers[3 * i + 1] = heap[i] >> 16;
      answers[3 * i + 2] = first_place(x.tree, q.a, q.b, d, x.tree.rank(q.a, d));
    }
    return heap.size();
  }
  // A bitmap of each different word from the symbols of its entries.
  static uint64_t boolean(void *p, const Query &q, uint32_t *answers) {
    Index &x = *(Index *)p;
    Question question;
    uint64_t bitmaps[32][64];
    read_question(q.question, q.size, question);
    for (size_t i = 0; i < question.words; i++) {
      uint32_t a = x.starts[question.terms[i]], b = x.starts[question.terms[i] + 1];
      typename Tree::size_type found = 0;
      if (a != b) sdsl::interval_symbols(x.tree, a, b, found, x.symbols, x.below, x.upto);
      std::fill(bitmaps[i], bitmaps[i] + 64, 0);
      for (size_t s = 0; s < found; s++) bitmaps[i][x.symbols[s] / 64] |= (uint64_t)1 << x.symbols[s] % 64;
    }
    return put_matching(question, bitmaps, x.documents, answers);
  }
  static Contender contender(const char *name) {
    return {name, build, drop, bytes, {nullptr, nullptr, nullptr, access, rank, nullptr, ranks, select, quantile, list, conjunction, greedy, probing, nullptr, boolean, nullptr}};
  }
};

typedef sdsl::wt_int<> Default;
typedef sdsl::wt_int<sdsl::bit_vector, sdsl::rank_support_v5<1>, sdsl::select_support_scan<1>, sdsl::select_support_scan<0>> Small;
}

extern "C" void SDSL_ENTRY(Contender *two) {
  two[0] = Peer<Default, true>::contender("sdsl wt_int" SDSL_SUFFIX);
  two[1] = Peer<Small, false>::contender("sdsl wt_int v5" SDSL_SUFFIX);
}
