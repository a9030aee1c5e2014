// The header from C++, with slices that are vectors: empty ones, whose data() may be NULL, are lent through MASUVELIOR_LENT.
// run.sh builds and runs it; it ends with 0 where every answer is as expected.
#include "masuvelior.h"
#include <cstdio>
#include <vector>

namespace {

int failed = 0;

void expect(const char *what, bool holds) {
  if (holds) return;
  std::fprintf(stderr, "vectors: %s\n", what);
  failed = 1;
}

const uint32_t *lent(const std::vector<uint32_t> &v) { return MASUVELIOR_LENT(const uint32_t, v.data()); }
const uint16_t *lent(const std::vector<uint16_t> &v) { return MASUVELIOR_LENT(const uint16_t, v.data()); }
uint32_t *lent(std::vector<uint32_t> &v) { return MASUVELIOR_LENT(uint32_t, v.data()); }
uint8_t *lent(std::vector<uint8_t> &v) { return MASUVELIOR_LENT(uint8_t, v.data()); }

// A library without entries: an empty vector for the writer and for the reader.
std::vector<uint8_t> without_entries() {
  const std::vector<uint32_t> entries, lengths = {0, 0};
  std::vector<uint8_t> archive(64);
  size_t length = 0;
  const uint32_t written = masuvelior_write(lent(entries), entries.size(), lent(lengths), lengths.size(), 5,
                                            lent(archive), archive.size(), &length);
  expect("write without entries", written == MASUVELIOR_OK);
  archive.resize(length);
  return archive;
}

void ask(std::vector<uint8_t> &archive) {
  uint32_t n = 9, documents = 9, terms = 9, place = 9, listed = 9, spent = 9, number = 9;
  std::vector<uint32_t> none, lengths(2, 9), work(MASUVELIOR_WORK_LENGTH(5), 9);
  const uint32_t read = masuvelior_read(lent(archive), archive.size(), lent(none), none.size(), lent(lengths), lengths.size(),
                                        &n, &documents, &terms);
  expect("read without entries", read == MASUVELIOR_OK && n == 0 && documents == 5 && terms == 2);
  expect("lengths without entries", lengths[0] == 0 && lengths[1] == 0);
  const uint32_t select = masuvelior_select(lent(archive), archive.size(), 4, 1, &place);
  expect("place without entries", select == MASUVELIOR_OK && place == n);
  const uint32_t conjunction = masuvelior_conjunction(lent(archive), archive.size(), lent(none), none.size(),
                                                      lent(none), none.size(), &listed);
  expect("no terms", conjunction == MASUVELIOR_REFUSED_TERM_COUNT && listed == 9);
  const uint32_t greedy = masuvelior_greedy_entries(lent(archive), archive.size(), 0, 0, 0, 0, lent(none), none.size(),
                                                    lent(work), work.size(), &listed, &spent, &number);
  expect("no documents asked for", greedy == MASUVELIOR_OK && listed == 0 && spent == 0 && number == 0 && work[19] == 0);
  const std::vector<uint32_t> term = {1};
  work.assign(work.size(), 9);
  const uint32_t weighted = masuvelior_weighted(lent(archive), archive.size(), lent(term), term.size(), 0, 0,
                                                lent(none), none.size(), lent(work), work.size(), &listed, &spent, &number);
  expect("no documents weighed", weighted == MASUVELIOR_OK && listed == 0 && spent == 0 && number == 0 && work[19] == 0);
  const uint32_t nothing = masuvelior_weighted(lent(archive), archive.size(), lent(none), none.size(), 0, 0,
                                               lent(none), none.size(), lent(work), work.size(), &listed, &spent, &number);
  expect("no terms to weigh", nothing == MASUVELIOR_REFUSED_TERM_COUNT && listed == 0);
}

// Lists of no entries: room for three numbers a document is asked for, though nothing is listed and nothing is written.
void list(std::vector<uint8_t> &archive) {
  uint32_t listed = 9;
  std::vector<uint32_t> answers(MASUVELIOR_LIST_LENGTH(5) - 1, 9);
  const uint32_t small = masuvelior_list(lent(archive), archive.size(), 0, 0, lent(answers), answers.size(), &listed);
  expect("no room for a list", small == MASUVELIOR_REFUSED_ANSWER_SLICE && listed == 9);
  answers.push_back(9);
  const uint32_t terms = masuvelior_opened_list_terms(lent(archive), archive.size(), 0, 1, lent(answers), answers.size(), &listed);
  expect("a list of no entries", terms == MASUVELIOR_OK && listed == 0 && answers == std::vector<uint32_t>(15, 9));
}

// Sets of documents: an empty one counts 0, and is refused where the place is past the end; one that does not ascend is refused before that.
void count(std::vector<uint8_t> &archive) {
  uint32_t counted = 9;
  const std::vector<uint32_t> none, all = {0, 1, 2, 3, 4}, repeated = {4, 4};
  const uint32_t past = masuvelior_rank_set(lent(archive), archive.size(), lent(none), none.size(), 1, &counted);
  expect("past the end", past == MASUVELIOR_REFUSED_ARGUMENT && counted == 9);
  const uint32_t twice = masuvelior_opened_rank_set(lent(archive), archive.size(), lent(repeated), repeated.size(), 1, &counted);
  expect("a document twice", twice == MASUVELIOR_REFUSED_SET && counted == 9);
  const uint32_t empty = masuvelior_rank_set(lent(archive), archive.size(), lent(none), none.size(), 0, &counted);
  expect("an empty set", empty == MASUVELIOR_OK && counted == 0);
  counted = 9;
  const uint32_t whole = masuvelior_opened_rank_set(lent(archive), archive.size(), lent(all), all.size(), 0, &counted);
  expect("all documents", whole == MASUVELIOR_OK && counted == 0);
}

// The order of terms: those without entries stand by their numbers, each once, and the rest of the eight numbers is 0. What is behind them stays
// as it was, and so does everything after a refusal.
void arrange(std::vector<uint8_t> &archive) {
  uint32_t size = 9;
  std::vector<uint32_t> order(MASUVELIOR_MAX_CHOSEN + 1, 9);
  const std::vector<uint32_t> none, typed = {1, 0, 1}, unknown = {0, 2}, untouched = order;
  const uint32_t empty = masuvelior_rarest_first(lent(archive), archive.size(), lent(none), none.size(), lent(order), &size);
  expect("no terms to order", empty == MASUVELIOR_REFUSED_TERM_COUNT && size == 9 && order == untouched);
  const uint32_t third = masuvelior_opened_rarest_first(lent(archive), archive.size(), lent(unknown), unknown.size(), lent(order), &size);
  expect("a third term", third == MASUVELIOR_REFUSED_ARGUMENT && size == 9 && order == untouched);
  const uint32_t both = masuvelior_rarest_first(lent(archive), archive.size(), lent(typed), typed.size(), lent(order), &size);
  expect("both terms", both == MASUVELIOR_OK && size == 2 && order == std::vector<uint32_t>({0, 1, 0, 0, 0, 0, 0, 0, 9}));
}

// Questions with and, or, not: an empty one is refused before an empty answer slice is, and 'not' lists every document where a term has none.
void match(std::vector<uint8_t> &archive) {
  uint32_t listed = 9;
  std::vector<uint32_t> none, answers(MASUVELIOR_BOOLEAN_LENGTH(5), 9);
  const std::vector<uint16_t> empty, term = {1}, denied = {MASUVELIOR_NOT, 1};
  const uint32_t unread = masuvelior_boolean(lent(archive), archive.size(), lent(empty), empty.size(), lent(none), none.size(), &listed);
  expect("an empty question", unread == MASUVELIOR_REFUSED_QUESTION && listed == 9);
  const uint32_t small = masuvelior_opened_boolean(lent(archive), archive.size(), lent(term), term.size(), lent(none), none.size(), &listed);
  expect("no room for documents", small == MASUVELIOR_REFUSED_ANSWER_SLICE && listed == 9);
  const uint32_t nothing = masuvelior_boolean(lent(archive), archive.size(), lent(term), term.size(), lent(answers), answers.size(), &listed);
  expect("a term without entries", nothing == MASUVELIOR_OK && listed == 0 && answers[0] == 9);
  const uint32_t all = masuvelior_boolean(lent(archive), archive.size(), lent(denied), denied.size(), lent(answers), answers.size(), &listed);
  expect("all other documents", all == MASUVELIOR_OK && listed == 5 && answers == std::vector<uint32_t>({0, 1, 2, 3, 4}));
}

}  // namespace

int main() {
  uint32_t n, documents, terms;
  std::vector<uint8_t> empty;
  expect("no bytes", masuvelior_open(lent(empty), empty.size(), &n, &documents, &terms) == MASUVELIOR_REFUSED_TOO_SHORT);
  std::vector<uint8_t> archive = without_entries();
  ask(archive);
  list(archive);
  count(archive);
  arrange(archive);
  match(archive);
  expect("macros of lengths of top-k", MASUVELIOR_TOP_K_LENGTH(UINT32_MAX, 4u) == 12 && MASUVELIOR_TOP_K_LENGTH(3, 4) == 9);
  expect("macros of lengths by score", MASUVELIOR_WEIGHTED_LENGTH(UINT32_MAX, 4u) == 8 && MASUVELIOR_WEIGHTED_LENGTH(3, 4) == 6);
  expect("macros of lengths of lists", MASUVELIOR_LIST_LENGTH(4) == 12 && MASUVELIOR_CONJUNCTION_LENGTH(4) == 8);
  expect("macros of other lengths", MASUVELIOR_BOOLEAN_LENGTH(4) == 4 && MASUVELIOR_WORK_LENGTH(4) == 16);
  return failed;
}
