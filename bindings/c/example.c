/* Writes the small library of document 01, opens it, asks it questions, and compares what was answered with expected.txt.
 * run.sh builds and runs it. It ends with 0 where every line is as expected. */
#include "masuvelior.h"
#include <stdio.h>
#include <string.h>

enum { N = 4, ROOM = 128 };

static uint8_t archive[ROOM];
static size_t size;
static char said[8192];

/* One line of what was answered: a name, the answer's number, and so many values. */
static void say(const char *name, uint32_t code, const uint32_t *values, size_t count) {
  size_t at = strlen(said);
  at += (size_t)snprintf(said + at, sizeof said - at, "%s: %u", name, (unsigned)code);
  for (size_t i = 0; i < count; i++) at += (size_t)snprintf(said + at, sizeof said - at, " %u", (unsigned)values[i]);
  snprintf(said + at, sizeof said - at, "\n");
}

/* These numbers as a slice: a pointer and a length. */
#define SLICE(type, ...) (const type[]){__VA_ARGS__}, sizeof((const type[]){__VA_ARGS__}) / sizeof(type)

static void write_library(void) {
  const uint32_t entries[] = {3, 1, 0, 3, 2, 1, 3, 0};
  const uint32_t lengths[] = {3, 0, 5};
  size_t needed = 0;
  uint32_t code = masuvelior_archive_length(8, N, 3, &needed);
  uint32_t lengthened = (uint32_t)needed;
  say("archive_length", code, &lengthened, 1);
  code = masuvelior_write(entries, 8, lengths, 3, N, archive, sizeof archive, &size);
  uint32_t written = (uint32_t)size;
  say("write", code, &written, 1);
}

static void open_and_read(void) {
  uint32_t sizes[3] = {0, 0, 0};
  say("open", masuvelior_open(archive, size, &sizes[0], &sizes[1], &sizes[2]), sizes, 3);
  uint32_t none[3] = {7, 7, 7};
  say("open one byte more", masuvelior_open(archive, size + 1, &none[0], &none[1], &none[2]), none, 3);
  uint32_t entries[8], lengths[3];
  say("read", masuvelior_read(archive, size, entries, 8, lengths, 3, &sizes[0], &sizes[1], &sizes[2]), entries, 8);
  say("read, lengths", 0, lengths, 3);
}

/* Questions that check the archive. A list has three numbers a document, and a conjunction pairs; a repeated term counts once. */
static void ask(void) {
  uint32_t x = 99, range[2] = {0, 0}, answers[3 * N], listed = 0;
  say("access 4", masuvelior_access(archive, size, 4, &x), &x, 1);
  say("rank of 3 before 8", masuvelior_rank(archive, size, 3, 8, &x), &x, 1);
  say("select second 0", masuvelior_select(archive, size, 0, 2, &x), &x, 1);
  say("quantile 4 of 0 to 8", masuvelior_quantile(archive, size, 0, 8, 4, &x), &x, 1);
  say("quantile 0 of term 2", masuvelior_quantile_terms(archive, size, 2, 2, 0, &x), &x, 1);
  uint32_t code = masuvelior_list(archive, size, 0, 4, answers, 3 * N, &listed);
  say("list 0 to 4", code, answers, 3 * listed);
  code = masuvelior_list(archive, size, 3, 8, answers, 3 * N, &listed);
  say("list 3 to 8", code, answers, 3 * listed);
  code = masuvelior_list_terms(archive, size, 1, 1, answers, 3 * N, &listed);
  say("list of term 1", code, answers, 3 * listed);
  code = masuvelior_list_terms(archive, size, 2, 2, answers, 3 * N, &listed);
  say("list of term 2", code, answers, 3 * listed);
  const uint32_t chosen[] = {0, 2, 0};
  code = masuvelior_conjunction(archive, size, chosen, 2, answers, 2 * N, &listed);
  say("terms 0 and 2", code, answers, 2 * listed);
  code = masuvelior_conjunction(archive, size, chosen, 3, answers, 2 * N, &listed);
  say("terms 0, 2 and 0", code, answers, 2 * listed);
  say("range of terms 1 to 2", masuvelior_range_of_terms(archive, size, 1, 2, &range[0], &range[1]), range, 2);
  say("3 of 16 per mille", masuvelior_per_mille(3, 16, &x), &x, 1);
}

/* The count of a set of documents, put to the checked function and to that of an opened archive: one line for each. A refusal leaves it as it
 * was, which is 99. */
static void count(const char *name, const uint32_t *set, size_t length, uint32_t place) {
  uint32_t x = 99;
  uint32_t code = masuvelior_rank_set(archive, size, set, length, place, &x);
  say(name, code, &x, 1);
  x = 99;
  code = masuvelior_opened_rank_set(archive, size, set, length, place, &x);
  say("  opened", code, &x, 1);
}

#define COUNT(name, place, ...) count(name, SLICE(uint32_t, __VA_ARGS__), place)

/* A set of one counts as rank does, and all four documents count every entry. Refusal 19 comes before 11. */
static void count_all(void) {
  uint32_t many[MASUVELIOR_MAX_SET + 1];
  for (uint32_t i = 0; i < MASUVELIOR_MAX_SET + 1; i++) many[i] = i;
  COUNT("rank of {0, 3} before 8", 8, 0, 3);
  COUNT("rank of {0, 3} before 3", 3, 0, 3);
  COUNT("rank of {3} before 8", 8, 3);
  COUNT("rank of {0, 1, 2, 3} before 5", 5, 0, 1, 2, 3);
  count("rank of {} before 8", many, 0, 8);
  COUNT("rank of {3, 0} before 8", 8, 3, 0);
  COUNT("rank of {1, 1} before 8", 8, 1, 1);
  COUNT("rank of {2, 1, 7} before 8", 8, 2, 1, 7);
  COUNT("rank of {3, 0} before 9", 9, 3, 0);
  count("rank of {0, .., 64} before 8", many, MASUVELIOR_MAX_SET + 1, 8);
  count("rank of {0, .., 63} before 8", many, MASUVELIOR_MAX_SET, 8);
  COUNT("rank of {4} before 8", 8, 4);
  COUNT("rank of {0, 3} before 9", 9, 0, 3);
  count("rank of {} before 9", many, 0, 9);
}

/* Three numbers a document: its number, its count, and the place of its first entry in the range, counted from entry 0. */
static void search(void) {
  uint32_t answers[3 * N], work[4 * N], listed = 0, end[2] = {9, 9};
  uint32_t code = masuvelior_greedy_entries(archive, size, 0, 8, 2, 9, answers, 6, work, 4 * N, &listed, &end[0], &end[1]);
  say("greedy 0 to 8, 2, 9", code, answers, 3 * listed);
  say("  done", code, end, 2);
  code = masuvelior_greedy_entries(archive, size, 3, 8, 2, 9, answers, 6, work, 4 * N, &listed, &end[0], &end[1]);
  say("greedy 3 to 8, 2, 9", code, answers, 3 * listed);
  say("  done", code, end, 2);
  code = masuvelior_greedy_terms(archive, size, 0, 2, 1, 2, answers, 3, work, 4 * N, &listed, &end[0], &end[1]);
  say("greedy terms 0 to 2, 1, 2", code, answers, 3 * listed);
  say("  spent", code, end, 2);
  code = masuvelior_greedy_terms(archive, size, 2, 2, 2, 9, answers, 6, work, 4 * N, &listed, &end[0], &end[1]);
  say("greedy term 2, 2, 9", code, answers, 3 * listed);
  say("  done", code, end, 2);
  code = masuvelior_probing_entries(archive, size, 1, 4, 3, answers, 9, work, 4 * N, &listed);
  say("probing 1 to 4, 3", code, answers, 3 * listed);
  code = masuvelior_probing_terms(archive, size, 0, 0, 1, answers, 3, work, 4 * N, &listed);
  say("probing term 0, 1", code, answers, 3 * listed);
}

/* Rare terms weigh more: terms 0 and 2 have three and four of the four documents and weigh 1 and 0, term 1 has none and weighs 0. Documents
 * of score 0 are listed too, but those without an entry are not. Term 0 given twice counts once, and terms may be typed in any order. */
static void weigh(void) {
  uint32_t answers[2 * N], work[4 * N], listed = 0, end[2] = {9, 9};
  const uint32_t both[] = {0, 2}, twice[] = {0, 0}, turned[] = {2, 0, 2, 0};
  uint32_t code = masuvelior_weighted(archive, size, both, 2, 4, 3, answers, 2 * N, work, 4 * N, &listed, &end[0], &end[1]);
  say("weighted 0 and 2, 4, 3", code, answers, 2 * listed);
  say("  done", code, end, 2);
  code = masuvelior_weighted(archive, size, turned, 4, 4, 3, answers, 2 * N, work, 4 * N, &listed, &end[0], &end[1]);
  say("weighted 2, 0, 2 and 0, 4, 3", code, answers, 2 * listed);
  say("  done", code, end, 2);
  code = masuvelior_weighted(archive, size, both, 2, 4, 2, answers, 2 * N, work, 4 * N, &listed, &end[0], &end[1]);
  say("weighted 0 and 2, 4, 2", code, answers, 2 * listed);
  say("  spent", code, end, 2);
  code = masuvelior_weighted(archive, size, both, 2, 1, 1, answers, 2, work, 4 * N, &listed, &end[0], &end[1]);
  say("weighted 0 and 2, 1, 1", code, answers, 2 * listed);
  say("  spent", code, end, 2);
  code = masuvelior_opened_weighted(archive, size, both + 1, 1, 4, 3, answers, 2 * N, work, 4 * N, &listed, &end[0], &end[1]);
  say("opened weighted 2, 4, 3", code, answers, 2 * listed);
  say("  done", code, end, 2);
  const uint32_t none[] = {1};
  code = masuvelior_opened_weighted(archive, size, none, 1, 2, 0, answers, 4, work, 4 * N, &listed, &end[0], &end[1]);
  say("opened weighted 1, 2, 0", code, answers, 2 * listed);
  say("  done", code, end, 2);
  code = masuvelior_opened_weighted(archive, size, twice, 2, 2, 2, answers, 4, work, 4 * N, &listed, &end[0], &end[1]);
  say("opened weighted 0 and 0, 2, 2", code, answers, 2 * listed);
  say("  done", code, end, 2);
}

/* The order in which scores are added up, put to the checked function and to that of an opened archive: one line for each, with the size, the
 * eight numbers and one behind them. An answer leaves the last as it was, which is 99, and a refusal all of them. */
static void arrange(const char *name, const uint32_t *chosen, size_t length) {
  enum { SHOWN = 1 + MASUVELIOR_MAX_CHOSEN + 1 };
  for (int opened = 0; opened < 2; opened++) {
    uint32_t shown[SHOWN];
    for (size_t i = 0; i < SHOWN; i++) shown[i] = 99;
    uint32_t code = opened ? masuvelior_opened_rarest_first(archive, size, chosen, length, shown + 1, shown)
                           : masuvelior_rarest_first(archive, size, chosen, length, shown + 1, shown);
    say(opened ? "  opened" : name, code, shown, SHOWN);
  }
}

#define ARRANGE(name, ...) arrange(name, SLICE(uint32_t, __VA_ARGS__))

/* Terms 0, 1 and 2 have three entries, none and five. Refusal 10 comes before 11, and both look at all that are given. */
static void arrange_all(void) {
  ARRANGE("order of 2, 0", 2, 0);
  ARRANGE("order of 2, 1, 0", 2, 1, 0);
  ARRANGE("order of 0, 0, 2", 0, 0, 2);
  ARRANGE("order of 2, 2, 0, 2, 1, 0, 1, 2", 2, 2, 0, 2, 1, 0, 1, 2);
  ARRANGE("order of 2", 2);
  arrange("order of no terms", (const uint32_t[]){0}, 0);
  ARRANGE("order of 0, nine times", 0, 0, 0, 0, 0, 0, 0, 0, 0);
  ARRANGE("order of 3, nine times", 3, 3, 3, 3, 3, 3, 3, 3, 3);
  ARRANGE("order of 0, 0, 3", 0, 0, 3);
}

enum { AND = MASUVELIOR_AND, OR = MASUVELIOR_OR, NOT = MASUVELIOR_NOT, OPEN = MASUVELIOR_OPEN, CLOSE = MASUVELIOR_CLOSE };

/* A question with and, or, not, put to the checked function and to that of an opened archive: one line for each. Documents are listed without
 * counts, so N numbers are room enough. */
static void match(const char *name, const uint16_t *question, size_t length) {
  uint32_t answers[MASUVELIOR_BOOLEAN_LENGTH(N)], listed = 0;
  uint32_t code = masuvelior_boolean(archive, size, question, length, answers, N, &listed);
  say(name, code, answers, listed);
  listed = 0;
  code = masuvelior_opened_boolean(archive, size, question, length, answers, N, &listed);
  say("  opened", code, answers, listed);
}

/* So many brackets around term 0. */
static void match_nested(const char *name, size_t depth) {
  uint16_t question[MASUVELIOR_MAX_QUESTION + 1];
  for (size_t i = 0; i < 2 * depth + 1; i++) question[i] = i < depth ? OPEN : i > depth ? CLOSE : 0;
  match(name, question, 2 * depth + 1);
}

/* So many times 'not' before term 0. */
static void match_denied(const char *name, size_t times) {
  uint16_t question[MASUVELIOR_MAX_QUESTION + 1];
  for (size_t i = 0; i < times; i++) question[i] = NOT;
  question[times] = 0;
  match(name, question, times + 1);
}

#define MATCH(name, ...) match(name, SLICE(uint16_t, __VA_ARGS__))

/* Term 0 has the documents 0, 1 and 3, term 1 none, term 2 all. Refusal 18 comes before 11. */
static void match_all(void) {
  MATCH("2 and not 0", 2, AND, NOT, 0);
  MATCH("2 and not 0 or 1", 2, AND, NOT, 0, OR, 1);
  MATCH("not 1", NOT, 1);
  MATCH("0 or 2 and 1", 0, OR, 2, AND, 1);
  MATCH("(0 or 2) and 1", OPEN, 0, OR, 2, CLOSE, AND, 1);
  MATCH("not not 0", NOT, NOT, 0);
  MATCH("not (0 and 2)", NOT, OPEN, 0, AND, 2, CLOSE);
  match_nested("eight brackets", 8);
  match_denied("not 63 times", 63);
  match("nothing", (const uint16_t[]){0}, 0);
  MATCH("0 0", 0, 0);
  MATCH("0 and", 0, AND);
  MATCH("( )", OPEN, CLOSE);
  MATCH("4096", 4096);
  MATCH("60005", 60005);
  match_nested("nine brackets", 9);
  match_denied("not 64 times", 64);
  MATCH("3", 3);
  MATCH("4095", 4095);
  MATCH("and 3", AND, 3);
}

/* Many questions of one archive: it was opened once, and is not checked again. */
static void ask_opened(void) {
  uint32_t x = 99, range[2], answers[3 * N], work[4 * N], listed = 0, end[2];
  uint32_t entries[8], lengths[3], sizes[3];
  say("opened access 4", masuvelior_opened_access(archive, size, 4, &x), &x, 1);
  say("opened rank of 3 before 3", masuvelior_opened_rank(archive, size, 3, 3, &x), &x, 1);
  say("opened select third 0", masuvelior_opened_select(archive, size, 0, 3, &x), &x, 1);
  say("opened quantile 7 of 0 to 8", masuvelior_opened_quantile(archive, size, 0, 8, 7, &x), &x, 1);
  say("opened quantile 2 of term 0", masuvelior_opened_quantile_terms(archive, size, 0, 0, 2, &x), &x, 1);
  uint32_t code = masuvelior_opened_list(archive, size, 3, 8, answers, 3 * N, &listed);
  say("opened list 3 to 8", code, answers, 3 * listed);
  code = masuvelior_opened_list_terms(archive, size, 0, 0, answers, 3 * N, &listed);
  say("opened list of term 0", code, answers, 3 * listed);
  const uint32_t twice[] = {0, 0};
  code = masuvelior_opened_conjunction(archive, size, twice, 2, answers, 2 * N, &listed);
  say("opened terms 0 and 0", code, answers, 2 * listed);
  say("opened range of term 0", masuvelior_opened_range_of_terms(archive, size, 0, 0, &range[0], &range[1]), range, 2);
  code = masuvelior_opened_greedy_entries(archive, size, 1, 4, 3, 2, answers, 9, work, 4 * N, &listed, &end[0], &end[1]);
  say("opened greedy 1 to 4, 3, 2", code, answers, 3 * listed);
  say("  spent", code, end, 2);
  code = masuvelior_opened_greedy_terms(archive, size, 1, 1, 5, 0, answers, 3 * N, work, 4 * N, &listed, &end[0], &end[1]);
  say("opened greedy term 1, 5, 0", code, answers, 3 * listed);
  say("  done", code, end, 2);
  code = masuvelior_opened_probing_entries(archive, size, 0, 8, 4, answers, 3 * N, work, 4 * N, &listed);
  say("opened probing 0 to 8, 4", code, answers, 3 * listed);
  code = masuvelior_opened_probing_terms(archive, size, 2, 2, 2, answers, 6, work, 4 * N, &listed);
  say("opened probing term 2, 2", code, answers, 3 * listed);
  code = masuvelior_opened_read(archive, size, entries, 8, lengths, 3, &sizes[0], &sizes[1], &sizes[2]);
  say("opened read", code, sizes, 3);
}

/* A walk over the places of document 3, j = 1, 2, ..: there is no fourth, so it ends at n. */
static void walk(void) {
  uint32_t n = 0, documents, terms, places[9], j = 0, place = 0;
  uint32_t code = masuvelior_open(archive, size, &n, &documents, &terms);
  while (code == MASUVELIOR_OK && place < n) {
    code = masuvelior_opened_select(archive, size, 3, j + 1, &place);
    places[j++] = place;
  }
  say("walk over 3, to n", code, places, j);
}

/* A refusal answers its number and leaves what is lent as it was. */
static void refusals(void) {
  uint32_t x = 99, listed = 98, answers[3 * N] = {5, 5, 5, 5, 5, 5, 5, 5, 5, 5, 5, 5}, work[4 * N] = {6}, end[2] = {97, 96};
  uint32_t order[MASUVELIOR_MAX_CHOSEN] = {4, 4, 4, 4, 4, 4, 4, 4};
  const uint32_t nine[] = {0, 0, 0, 0, 0, 0, 0, 0, 0}, three[] = {3}, repeated[] = {0, 0, 3}, falling[] = {3, 0};
  say("access 8", masuvelior_access(archive, size, 8, &x), &x, 1);
  say("opened access 8", masuvelior_opened_access(archive, size, 8, &x), &x, 1);
  say("select zeroth 0", masuvelior_select(archive, size, 0, 0, &x), &x, 1);
  say("opened select first 4", masuvelior_opened_select(archive, size, 4, 1, &x), &x, 1);
  say("rank of {3, 0}, one byte less", masuvelior_rank_set(archive, size - 1, falling, 2, 8, &x), &x, 1);
  say("order of 0, nine times, one byte less", masuvelior_rarest_first(archive, size - 1, nine, 9, order, &listed), &listed, 1);
  say("nine terms", masuvelior_conjunction(archive, size, nine, 9, answers, 2 * N, &listed), &listed, 1);
  say("terms 0, 0 and 3", masuvelior_conjunction(archive, size, repeated, 3, answers, 2 * N, &listed), &listed, 1);
  say("opened no terms", masuvelior_opened_conjunction(archive, size, nine, 0, answers, 2 * N, &listed), &listed, 1);
  say("conjunction, short answers", masuvelior_conjunction(archive, size, nine, 1, answers, 2 * N - 1, &listed), &listed, 1);
  say("list, short answers", masuvelior_list(archive, size, 0, 8, answers, 3 * N - 1, &listed), &listed, 1);
  say("opened list, short answers", masuvelior_opened_list(archive, size, 4, 4, answers, 3 * N - 1, &listed), &listed, 1);
  uint32_t code = masuvelior_greedy_entries(archive, size, 0, 8, 2, 9, answers, 5, work, 4 * N - 1, &listed, &end[0], &end[1]);
  say("greedy, short answers and work", code, end, 2);
  code = masuvelior_greedy_entries(archive, size, 0, 8, 2, 9, answers, 6, work, 4 * N - 1, &listed, &end[0], &end[1]);
  say("greedy, short work", code, end, 2);
  code = masuvelior_opened_probing_entries(archive, size, 0, 8, 5, answers, 3 * N - 1, work, 4 * N, &listed);
  say("opened probing, short answers", code, &listed, 1);
  code = masuvelior_weighted(archive, size, nine, 9, 2, 9, answers, 4, work, 4 * N, &listed, &end[0], &end[1]);
  say("weighted, nine terms", code, end, 2);
  code = masuvelior_opened_weighted(archive, size, nine, 0, 2, 9, answers, 4, work, 4 * N, &listed, &end[0], &end[1]);
  say("opened weighted, no terms", code, end, 2);
  code = masuvelior_weighted(archive, size, three, 1, 2, 9, answers, 4, work, 4 * N, &listed, &end[0], &end[1]);
  say("weighted, term 3", code, end, 2);
  code = masuvelior_weighted(archive, size, nine, 1, 2, 9, answers, 3, work, 4 * N, &listed, &end[0], &end[1]);
  say("weighted, short answers", code, end, 2);
  code = masuvelior_opened_weighted(archive, size, nine, 1, 2, 9, answers, 4, work, 4 * N - 1, &listed, &end[0], &end[1]);
  say("opened weighted, short work", code, &listed, 1);
  const uint16_t any[] = {0}, missing[] = {3}, unread[] = {AND, 3};
  say("boolean, short answers", masuvelior_boolean(archive, size, any, 1, answers, N - 1, &listed), &listed, 1);
  say("boolean, term 3, short answers", masuvelior_opened_boolean(archive, size, missing, 1, answers, N - 1, &listed), &listed, 1);
  say("boolean, unread, short answers", masuvelior_boolean(archive, size, unread, 2, answers, N - 1, &listed), &listed, 1);
  say("boolean, unread, one byte less", masuvelior_boolean(archive, size - 1, unread, 2, answers, N - 1, &listed), &listed, 1);
  say("  answers", 0, answers, 3 * N);
  say("  work", 0, work, 1);
  say("  order", 0, order, MASUVELIOR_MAX_CHOSEN);
}

int main(int argc, char **argv) {
  static char expected[sizeof said];
  write_library();
  open_and_read();
  ask();
  count_all();
  search();
  weigh();
  arrange_all();
  match_all();
  ask_opened();
  walk();
  refusals();
  fputs(said, stdout);
  FILE *file = argc == 2 ? fopen(argv[1], "rb") : NULL;
  if (file == NULL) {
    fputs("example: wants the file of expected lines\n", stderr);
    return 2;
  }
  size_t got = fread(expected, 1, sizeof expected - 1, file);
  fclose(file);
  if (got != strlen(said) || memcmp(expected, said, got) != 0) {
    fputs("example: the lines above differ from the expected ones\n", stderr);
    return 1;
  }
  return 0;
}
