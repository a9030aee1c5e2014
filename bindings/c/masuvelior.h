/* Masuvelior for C and for what links C: an archive of document numbers, its writer, reader and check, and the questions asked of it.
 *
 * The library is crates/masuvelior/out/libmasuvelior.a, which `rt lib` in crates/masuvelior proves and builds, for x86-64 Linux. It needs no other
 * library than C's, of that memcpy and memset alone, has no state, allocates nothing and may be called from several threads at once. Of the
 * stack a call takes up to 25 KB (masuvelior_write), 22 KB (masuvelior_boolean, masuvelior_list and masuvelior_list_terms), 17 KB
 * (masuvelior_read), 7 KB (masuvelior_weighted), 6 KB (masuvelior_rank_set, the greedy search and probing) or 4 KB (all others), each of
 * these also in its opened form; a program that binds memcpy and memset at their first call lets the loader take 3 KB more there.
 *
 * The answer of each function is 0, or the number of a refusal (enum masuvelior_refusal). Where it is 0 each out-parameter is written, and
 * the lent slices as the function says. Where it is not 0 nothing is written at all.
 *
 * A slice is a pointer to its first element and a length in elements. What the caller keeps, of each function:
 *   - a pointer is not NULL, also that of a slice of length 0, and what it leads to is there and aligned for its type;
 *   - what a function may write overlaps nothing else that is handed to it, and nobody else reads or writes it during the call;
 *   - nobody writes a slice that is lent as `const` during the call.
 * No other value is wrong: every length, every number and any bytes are answered or refused. MASUVELIOR_LENT helps with the first where a
 * slice may be empty, as that of an empty std::vector. The second is what `restrict` says; the word is left out, since C++ has none and the
 * caller's compiler gains nothing by it.
 *
 * Words: an archive has n entries, N documents and W terms. An entry is the number of a document. Entries, documents, terms and places count
 * from 0. The entries a to b are those from place a up to but without place b. The terms first to last are both included, and stand for the
 * entries from the start of the first to the end of the last.
 *
 * Costs are given in ranks: one counts ones in a row of bits, by one sample and at most 64 bytes of the row. h is the number of rows, the
 * smallest with 2^h at least N, so at most 12. The check on opening, which each question makes first, reads all bytes of the archive once
 * and takes 4 * h ranks more: some 15 microseconds for an archive of 100 KB, where a question about one place takes half a microsecond.
 * docs/BENCHMARKS.md has the times.
 */
#ifndef MASUVELIOR_H
#define MASUVELIOR_H

#include <stddef.h>
#include <stdint.h>

/* The edition of the archive's format, and the version of this interface: the minor number rises where functions are added, the major one
 * where a function's parameters or answers change. From 2.0 on a repeated term counts once (masuvelior_conjunction, masuvelior_weighted);
 * before, it counted each time. From 3.0 on masuvelior_select answers n where a document has fewer than j entries; before, UINT32_MAX. 3.1
 * added questions with and, or, not (masuvelior_boolean). From 4.0 on masuvelior_per_mille rounds to the nearest; before, down. 4.1 added
 * the count of a set of documents (masuvelior_rank_set). 4.2 added the order in which a weighted score is added up
 * (masuvelior_rarest_first). From 5.0 on list, greedy and probing (masuvelior_list, masuvelior_greedy_entries, masuvelior_probing_entries, and
 * the same of terms) answer three numbers a document, the third its first place, and ask for room for them; before, two. */
#define MASUVELIOR_EDITION 1
#define MASUVELIOR_VERSION_MAJOR 5
#define MASUVELIOR_VERSION_MINOR 0

/* The limits: n is 0 to MASUVELIOR_MAX_ENTRIES, N and W are 1 to theirs, a conjunction, an order of terms or a weighted search is given 1
 * to MASUVELIOR_MAX_CHOSEN terms, a question with and, or, not has 1 to MASUVELIOR_MAX_QUESTION numbers and at most MASUVELIOR_MAX_DEPTH
 * brackets open at once, and a set has 0 to MASUVELIOR_MAX_SET documents. */
#define MASUVELIOR_MAX_ENTRIES 65535
#define MASUVELIOR_MAX_DOCUMENTS 4096
#define MASUVELIOR_MAX_TERMS 4096
#define MASUVELIOR_MAX_CHOSEN 8
#define MASUVELIOR_MAX_QUESTION 64
#define MASUVELIOR_MAX_DEPTH 8
#define MASUVELIOR_MAX_SET 64

/* The marks in a question with and, or, not. A number below MASUVELIOR_MAX_TERMS is a term. */
#define MASUVELIOR_AND 60000
#define MASUVELIOR_OR 60001
#define MASUVELIOR_NOT 60002
#define MASUVELIOR_OPEN 60003
#define MASUVELIOR_CLOSE 60004

/* How many numbers are asked for: in the answer slice of list, of a conjunction, and of a question with and, or, not; in that of top-k by count,
 * greedy or probing, and in that of the weighted search; and in the work slice of these three. */
#define MASUVELIOR_LIST_LENGTH(documents) (3 * (size_t)(documents))
#define MASUVELIOR_CONJUNCTION_LENGTH(documents) (2 * (size_t)(documents))
#define MASUVELIOR_BOOLEAN_LENGTH(documents) ((size_t)(documents))
#define MASUVELIOR_TOP_K_LENGTH(k, documents) (3 * (size_t)((k) < (documents) ? (k) : (documents)))
#define MASUVELIOR_WEIGHTED_LENGTH(k, documents) (2 * (size_t)((k) < (documents) ? (k) : (documents)))
#define MASUVELIOR_WORK_LENGTH(documents) (4 * (size_t)(documents))

/* A pointer to lend for a slice that may be empty: p, or where p is NULL one that is aligned and leads to nothing, as
 * MASUVELIOR_LENT(const uint32_t, terms.data()) in C++. The length must be 0 then. It evaluates p twice. */
#define MASUVELIOR_LENT(type, p) ((p) ? (p) : (type *)sizeof(type))

/* What is answered must be looked at: without it the out-parameters mean nothing. */
#if defined(__GNUC__)
#define MASUVELIOR_MUST_USE __attribute__((warn_unused_result))
#elif defined(__cplusplus) && __cplusplus >= 201703L
#define MASUVELIOR_MUST_USE [[nodiscard]]
#elif defined(__STDC_VERSION__) && __STDC_VERSION__ >= 202311L
#define MASUVELIOR_MUST_USE [[nodiscard]]
#else
#define MASUVELIOR_MUST_USE
#endif

#ifdef __cplusplus
extern "C" {
#endif

/* Why an operation refused. The lowest number that applies is given, but 18 comes before 11 and 12, and 19 before 11. */
enum masuvelior_refusal {
  MASUVELIOR_OK = 0, /* not refused */
  /* opening */
  MASUVELIOR_REFUSED_TOO_SHORT = 1, /* fewer than 40 bytes */
  MASUVELIOR_REFUSED_EDITION = 2, /* the edition is not 1 */
  MASUVELIOR_REFUSED_LIMITS = 3, /* n, N or W is outside its limits */
  MASUVELIOR_REFUSED_PAIRS = 4, /* one of the three pairs at 16, 24, 32 differs from what n, N and W give */
  MASUVELIOR_REFUSED_LENGTH = 5, /* the archive's length differs from where the rows end */
  MASUVELIOR_REFUSED_TERM_TABLE = 6, /* the term table differs */
  MASUVELIOR_REFUSED_SAMPLE = 7, /* a sample is wrong */
  MASUVELIOR_REFUSED_UNUSED_BIT = 8, /* an unused bit of a row is 1 */
  MASUVELIOR_REFUSED_ENTRY = 9, /* an entry is N or more */
  /* a question */
  MASUVELIOR_REFUSED_TERM_COUNT = 10, /* no terms, or more than eight */
  MASUVELIOR_REFUSED_ARGUMENT = 11, /* an argument is outside its range */
  /* lent slices */
  MASUVELIOR_REFUSED_ANSWER_SLICE = 12, /* the answer slice, or one of read's two slices, is too short */
  MASUVELIOR_REFUSED_WORK_SLICE = 13, /* the work slice is too short */
  /* the writer */
  MASUVELIOR_REFUSED_WRITER_LIMITS = 14, /* n, N or W is outside its limits */
  MASUVELIOR_REFUSED_WRITER_ENTRY = 15, /* an entry is N or more */
  MASUVELIOR_REFUSED_WRITER_LENGTHS = 16, /* the term lengths do not add up to n */
  MASUVELIOR_REFUSED_WRITER_TARGET = 17, /* the target is shorter than the archive */
  /* a question with and, or, not */
  MASUVELIOR_REFUSED_QUESTION = 18, /* a question that is empty, too long, too deep or without a reading */
  /* a set of documents */
  MASUVELIOR_REFUSED_SET = 19 /* a set that is too long or not strictly ascending */
};

/* ---- the archive */

/* Whether these bytes are an archive; its n, N and W. Refusals 1 to 9.
 * Cost: each byte once, and 4 * h ranks. */
MASUVELIOR_MUST_USE
uint32_t masuvelior_open(const uint8_t *archive, size_t archive_length,
                         uint32_t *n, uint32_t *documents, uint32_t *terms);

/* The length in bytes of an archive of n entries, N documents and W terms. Refusal 14. Cost: some steps. */
MASUVELIOR_MUST_USE
uint32_t masuvelior_archive_length(uint32_t n, uint32_t documents, uint32_t terms, size_t *length);

/* Writes the archive of n entries, those of term 0 first, with the number of entries of each of W terms, into the front of the target, and
 * answers its length in bytes; the rest of the target is untouched. Refusals 14 to 17.
 * Cost: h * (n + N) steps, some 3 ms at the limits. */
MASUVELIOR_MUST_USE
uint32_t masuvelior_write(const uint32_t *entries, size_t n, const uint32_t *lengths, size_t terms, uint32_t documents,
                          uint8_t *target, size_t target_length, size_t *length);

/* Reads the n entries and the W term lengths into the front of two slices, whose rest is untouched, and answers n, N and W.
 * Refusals 1 to 9, and 12 where a slice is under n or under W numbers. Cost: h * (n + N) steps, some 2 ms at the limits. */
MASUVELIOR_MUST_USE
uint32_t masuvelior_read(const uint8_t *archive, size_t archive_length,
                         uint32_t *entries, size_t entries_length, uint32_t *lengths, size_t lengths_length,
                         uint32_t *n, uint32_t *documents, uint32_t *terms);

/* ---- questions; each checks the archive first, so each has the refusals 1 to 9 beside those that it names, and the cost of masuvelior_open
 * beside its own */

/* The entry at a place. 11: place n or more. Cost: 3 * h ranks. */
MASUVELIOR_MUST_USE
uint32_t masuvelior_access(const uint8_t *archive, size_t archive_length, uint32_t place, uint32_t *document);

/* The count of a document before a place, which may be n. 11: document N or more, place above n. Cost: 3 ranks a row, 2 in the
 * last. */
MASUVELIOR_MUST_USE
uint32_t masuvelior_rank(const uint8_t *archive, size_t archive_length, uint32_t document, uint32_t place, uint32_t *count);

/* How many entries before a place, which may be n, belong to a set of documents, each entry once. A set is up to 64 documents, strictly
 * ascending. An empty one counts 0; all N documents, where they are 64 or fewer, count place. 19, before 11: a set that is too long or not
 * strictly ascending. 11: a document N or more, place above n.
 * Cost: the set is read once, and for each row at most once more. Then one descent for the whole set, through at most h nodes of the tree
 * for each document: 3 ranks where the set goes to one half of a node, 4 where it parts. Where all numbers of a node are in the set, 2 in
 * the row above it, and nothing at and below it; where the set parts, nothing in a half without an entry before the place. */
MASUVELIOR_MUST_USE
uint32_t masuvelior_rank_set(const uint8_t *archive, size_t archive_length, const uint32_t *set, size_t set_length, uint32_t place,
                             uint32_t *count);

/* The place of the j-th entry of a document, j from 1; n, one past the end, where it has fewer, and nowhere else. So a walk over its places,
 * j = 1, 2, .., ends at n. 11: document N or more, j 0.
 * Cost: 2 * h ranks; where the entry is there, in each row a search among its samples too, by halves, and 64 bytes. */
MASUVELIOR_MUST_USE
uint32_t masuvelior_select(const uint8_t *archive, size_t archive_length, uint32_t document, uint32_t j, uint32_t *place);

/* The document at rank r, from 0, if the entries a to b were sorted. 11: a > b, b > n, r not below b - a.
 * Cost: 4 * h ranks. */
MASUVELIOR_MUST_USE
uint32_t masuvelior_quantile(const uint8_t *archive, size_t archive_length, uint32_t a, uint32_t b, uint32_t r, uint32_t *document);

/* The same of the terms first to last. 11: first > last, a term W or more, r not below the number of their entries.
 * Cost: 4 * h ranks. */
MASUVELIOR_MUST_USE
uint32_t masuvelior_quantile_terms(const uint8_t *archive, size_t archive_length, uint32_t first, uint32_t last, uint32_t r,
                                   uint32_t *document);

/* Answers of several numbers a document: one document after the other in the front of the answer slice, whose rest is untouched; `listed` is
 * how many documents there are. Those of a range are three numbers each: document, count, and place of its first entry in the range. Places
 * count from entry 0 of the archive, also where the range starts behind it. Those of chosen terms are pairs: document, and count or score. */

/* Every document among the entries a to b once, ascending, with its count and first place. 11: a > b, b > n. 12: answers under 3 * N numbers
 * (MASUVELIOR_LIST_LENGTH).
 * Cost: 4 ranks for each node of the tree with an entry of the range in it: at most h for each document listed. Then, for the first places, one
 * step a row for each entry of the range, or, where it has more than 24 entries for each document, a walk down the tree and back for each
 * document. */
MASUVELIOR_MUST_USE
uint32_t masuvelior_list(const uint8_t *archive, size_t archive_length, uint32_t a, uint32_t b,
                         uint32_t *answers, size_t answers_length, uint32_t *listed);

/* The same of the terms first to last, at the same cost. 11: first > last, a term W or more. 12: answers under 3 * N numbers. */
MASUVELIOR_MUST_USE
uint32_t masuvelior_list_terms(const uint8_t *archive, size_t archive_length, uint32_t first, uint32_t last,
                               uint32_t *answers, size_t answers_length, uint32_t *listed);

/* The documents with an entry under each of the chosen terms, ascending, with the sum of their counts, as pairs. A repeated term counts once:
 * the first stands, later ones drop out. 10: no term or more than eight, before any drops out. 11: a term W or more, of all that are given.
 * 12: answers under 2 * N numbers (MASUVELIOR_CONJUNCTION_LENGTH).
 * Cost: 2 ranks, and 2 for each different term, for each node in which every term has an entry: at most h for each document of the shortest
 * term. */
MASUVELIOR_MUST_USE
uint32_t masuvelior_conjunction(const uint8_t *archive, size_t archive_length, const uint32_t *chosen, size_t chosen_length,
                                uint32_t *answers, size_t answers_length, uint32_t *listed);

/* Every document that matches a question with and, or, not, ascending, one number each in the front of the answer slice, whose rest is
 * untouched; `listed` is how many there are. A question is up to 64 numbers: terms, which are below 4,096, and the marks MASUVELIOR_AND, _OR,
 * _NOT, _OPEN and _CLOSE, the last two of them brackets. A term matches the documents with an entry under it. 'Not' matches all other documents
 * of the archive, and may be repeated. 'Not' binds tightest, then 'and', then 'or'; equal ones group to the left; brackets nest at most eight
 * deep, for which 'not' does not count. So 7 AND NOT 8 OR 9 is (7 and (not 8)) or 9.
 * 18, before 11 and 12: a question that is empty, too long, too deep or has no reading; a number that is neither a term nor a mark leaves it
 * without one. 11: a term W or more, up to 4,095. 12: answers under N numbers. 10 is never given.
 * Cost: the question is read twice, and once more for each 64 of the N documents among which a term has one; for each different term, up to 4
 * ranks for each node of the tree with an entry of the term in it: at most h for each document of the term. */
MASUVELIOR_MUST_USE
uint32_t masuvelior_boolean(const uint8_t *archive, size_t archive_length, const uint16_t *question, size_t question_length,
                            uint32_t *answers, size_t answers_length, uint32_t *listed);

/* The terms first to last as entries: from the start of the first to the end of the last. 11: first > last, a term W or more.
 * Cost: two numbers of the term table. */
MASUVELIOR_MUST_USE
uint32_t masuvelior_range_of_terms(const uint8_t *archive, size_t archive_length, uint32_t first, uint32_t last,
                                   uint32_t *from, uint32_t *to);

/* The order in which masuvelior_weighted adds up scores: the different ones among the chosen terms, each once, the term with the fewest
 * entries first, of those with as many the lower number. Entries count, not different documents; terms without entries come first. Whichever
 * way the terms are typed, in any order and repeated, it is the same. `size` is how many terms it has. `order` leads to room for
 * MASUVELIOR_MAX_CHOSEN numbers, whatever is asked, so 12 is never given. An answer writes all of them, and nothing behind them: the terms
 * in front, and 0 in the rest. Since 0 may be a term too, `size` alone says where the order ends. 10: no term or more than eight, before any
 * drops out. 11: a term W or more, of all that are given.
 * Cost: two numbers of the term table for each different term, and comparisons of the terms with each other; no ranks. */
MASUVELIOR_MUST_USE
uint32_t masuvelior_rarest_first(const uint8_t *archive, size_t archive_length, const uint32_t *chosen, size_t chosen_length,
                                 uint32_t order[MASUVELIOR_MAX_CHOSEN], uint32_t *size);

/* count * 1,000 / size to the nearest whole number, and an exact half to the even one: 3 of 16, which is 187 and a half, is 188. So it is 0
 * to 1,000; 0 does not say that count is 0, nor 1,000 that it is size. Takes no archive. 11: size 0, count above size. Cost: one division. */
MASUVELIOR_MUST_USE
uint32_t masuvelior_per_mille(uint32_t count, uint32_t size, uint32_t *rate);

/* ---- top-k: the first k documents of a range by larger count, three numbers each, or of chosen terms by larger score, as pairs; equal ones by
 * lower number
 *
 * After an answer the first 4 * N numbers of the work slice are 0 and the rest of it is untouched; what it held before does not matter.
 * 12: answers under 3 * min(k, N) numbers (MASUVELIOR_TOP_K_LENGTH), or for the weighted search under 2 * min(k, N)
 * (MASUVELIOR_WEIGHTED_LENGTH). 13: work under 4 * N numbers (MASUVELIOR_WORK_LENGTH). */

/* The greedy search of the entries a to b, which may open so many nodes as the allowance says. `spent` is 0 where it is done, and `number`
 * is then the openings that were needed; `spent` is 1 where its allowance was spent first, and `number` is then the allowance: the
 * documents listed are those of the answer's front that the allowance covers. 11: a > b, b > n.
 * Cost: 4 ranks for each node opened, so at most 4 * allowance; for each node opened or document named a step in a heap of the waiting
 * nodes; for each document listed a walk down the tree and back, which finds its first place; and 4 * N numbers cleared. */
MASUVELIOR_MUST_USE
uint32_t masuvelior_greedy_entries(const uint8_t *archive, size_t archive_length, uint32_t a, uint32_t b, uint32_t k, uint32_t allowance,
                                   uint32_t *answers, size_t answers_length, uint32_t *work, size_t work_length,
                                   uint32_t *listed, uint32_t *spent, uint32_t *number);

/* The same of the terms first to last. 11: first > last, a term W or more. */
MASUVELIOR_MUST_USE
uint32_t masuvelior_greedy_terms(const uint8_t *archive, size_t archive_length, uint32_t first, uint32_t last, uint32_t k,
                                 uint32_t allowance, uint32_t *answers, size_t answers_length, uint32_t *work, size_t work_length,
                                 uint32_t *listed, uint32_t *spent, uint32_t *number);

/* The whole answer by probing, without an allowance, of the entries a to b. 11: a > b, b > n.
 * Cost: 4 * h ranks for each probe. Where the last of k documents has count c, there are fewer than 2 * (b - a) / c probes, and never more than
 * b - a; each new document is put in order among the k; for each document listed a walk down the tree and back, which finds its first place; and
 * 5 * N numbers are cleared. */
MASUVELIOR_MUST_USE
uint32_t masuvelior_probing_entries(const uint8_t *archive, size_t archive_length, uint32_t a, uint32_t b, uint32_t k,
                                    uint32_t *answers, size_t answers_length, uint32_t *work, size_t work_length, uint32_t *listed);

/* The same of the terms first to last. 11: first > last, a term W or more. */
MASUVELIOR_MUST_USE
uint32_t masuvelior_probing_terms(const uint8_t *archive, size_t archive_length, uint32_t first, uint32_t last, uint32_t k,
                                  uint32_t *answers, size_t answers_length, uint32_t *work, size_t work_length, uint32_t *listed);

/* The weighted search, in which rare terms weigh more: the first k of the documents with an entry under one or more of the chosen terms, by
 * larger score, equal scores by lower number, as pairs of document and score. A term that df different documents have weighs the largest g
 * with 2^g * df^4 at most N^4, which is 0 to 48; a term without entries weighs 0. A document's score is the sum, over the chosen terms, of
 * the term's weight times the document's count under it: 0, with which it is listed too, to 3,145,680. A repeated term counts once: the
 * first stands, later ones drop out. Scores are added up in the order of masuvelior_rarest_first; they and the whole answer are the same
 * whichever way the terms are typed. The allowance, `spent` and `number` are as in masuvelior_greedy_entries, with scores for counts; a node
 * without an entry of these terms is never opened. 10: no term or more than eight, before any drops out. 11: a term W or more, of all that
 * are given.
 * Cost: that of the order. For the weights, up to 4 ranks for each node where a term has two entries or more: at most h for each document of
 * the term. Then 2 ranks, and 2 for each different term with an entry there, for each node opened and for each node above it that is not
 * above the one opened before: at most h in all; for each node opened or document named a step in a heap of the waiting nodes; and 4 * N
 * numbers cleared. */
MASUVELIOR_MUST_USE
uint32_t masuvelior_weighted(const uint8_t *archive, size_t archive_length, const uint32_t *chosen, size_t chosen_length, uint32_t k,
                             uint32_t allowance, uint32_t *answers, size_t answers_length, uint32_t *work, size_t work_length,
                             uint32_t *listed, uint32_t *spent, uint32_t *number);

/* ---- the same for an archive that was opened before, without the check
 *
 * What the caller keeps beside the above: masuvelior_open answered 0 for these very bytes and this length, and they are unchanged since.
 * Then each answers, writes and refuses (10 to 13, 18 and 19) as its namesake above. Of other bytes nothing is promised. */

MASUVELIOR_MUST_USE
uint32_t masuvelior_opened_read(const uint8_t *archive, size_t archive_length,
                                uint32_t *entries, size_t entries_length, uint32_t *lengths, size_t lengths_length,
                                uint32_t *n, uint32_t *documents, uint32_t *terms);

MASUVELIOR_MUST_USE
uint32_t masuvelior_opened_access(const uint8_t *archive, size_t archive_length, uint32_t place, uint32_t *document);

MASUVELIOR_MUST_USE
uint32_t masuvelior_opened_rank(const uint8_t *archive, size_t archive_length, uint32_t document, uint32_t place, uint32_t *count);

MASUVELIOR_MUST_USE
uint32_t masuvelior_opened_rank_set(const uint8_t *archive, size_t archive_length, const uint32_t *set, size_t set_length, uint32_t place,
                                    uint32_t *count);

MASUVELIOR_MUST_USE
uint32_t masuvelior_opened_select(const uint8_t *archive, size_t archive_length, uint32_t document, uint32_t j, uint32_t *place);

MASUVELIOR_MUST_USE
uint32_t masuvelior_opened_quantile(const uint8_t *archive, size_t archive_length, uint32_t a, uint32_t b, uint32_t r,
                                    uint32_t *document);

MASUVELIOR_MUST_USE
uint32_t masuvelior_opened_quantile_terms(const uint8_t *archive, size_t archive_length, uint32_t first, uint32_t last, uint32_t r,
                                          uint32_t *document);

MASUVELIOR_MUST_USE
uint32_t masuvelior_opened_list(const uint8_t *archive, size_t archive_length, uint32_t a, uint32_t b,
                                uint32_t *answers, size_t answers_length, uint32_t *listed);

MASUVELIOR_MUST_USE
uint32_t masuvelior_opened_list_terms(const uint8_t *archive, size_t archive_length, uint32_t first, uint32_t last,
                                      uint32_t *answers, size_t answers_length, uint32_t *listed);

MASUVELIOR_MUST_USE
uint32_t masuvelior_opened_conjunction(const uint8_t *archive, size_t archive_length, const uint32_t *chosen, size_t chosen_length,
                                       uint32_t *answers, size_t answers_length, uint32_t *listed);

MASUVELIOR_MUST_USE
uint32_t masuvelior_opened_boolean(const uint8_t *archive, size_t archive_length, const uint16_t *question, size_t question_length,
                                   uint32_t *answers, size_t answers_length, uint32_t *listed);

MASUVELIOR_MUST_USE
uint32_t masuvelior_opened_range_of_terms(const uint8_t *archive, size_t archive_length, uint32_t first, uint32_t last,
                                          uint32_t *from, uint32_t *to);

MASUVELIOR_MUST_USE
uint32_t masuvelior_opened_rarest_first(const uint8_t *archive, size_t archive_length, const uint32_t *chosen, size_t chosen_length,
                                        uint32_t order[MASUVELIOR_MAX_CHOSEN], uint32_t *size);

MASUVELIOR_MUST_USE
uint32_t masuvelior_opened_greedy_entries(const uint8_t *archive, size_t archive_length, uint32_t a, uint32_t b, uint32_t k,
                                          uint32_t allowance, uint32_t *answers, size_t answers_length, uint32_t *work,
                                          size_t work_length, uint32_t *listed, uint32_t *spent, uint32_t *number);

MASUVELIOR_MUST_USE
uint32_t masuvelior_opened_greedy_terms(const uint8_t *archive, size_t archive_length, uint32_t first, uint32_t last, uint32_t k,
                                        uint32_t allowance, uint32_t *answers, size_t answers_length, uint32_t *work,
                                        size_t work_length, uint32_t *listed, uint32_t *spent, uint32_t *number);

MASUVELIOR_MUST_USE
uint32_t masuvelior_opened_probing_entries(const uint8_t *archive, size_t archive_length, uint32_t a, uint32_t b, uint32_t k,
                                           uint32_t *answers, size_t answers_length, uint32_t *work, size_t work_length,
                                           uint32_t *listed);

MASUVELIOR_MUST_USE
uint32_t masuvelior_opened_probing_terms(const uint8_t *archive, size_t archive_length, uint32_t first, uint32_t last, uint32_t k,
                                         uint32_t *answers, size_t answers_length, uint32_t *work, size_t work_length,
                                         uint32_t *listed);

MASUVELIOR_MUST_USE
uint32_t masuvelior_opened_weighted(const uint8_t *archive, size_t archive_length, const uint32_t *chosen, size_t chosen_length,
                                    uint32_t k, uint32_t allowance, uint32_t *answers, size_t answers_length, uint32_t *work,
                                    size_t work_length, uint32_t *listed, uint32_t *spent, uint32_t *number);

#ifdef __cplusplus
}
#endif

#endif
