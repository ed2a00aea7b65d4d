/* What the test files share: counted checks, hard numbers, and bytes to lend. */
#ifndef LINDENBROOD_HOST_TEST_H
#define LINDENBROOD_HOST_TEST_H

#include <inttypes.h>
#include <stdbool.h>
#include <stddef.h>
#include <stdint.h>

#include "lindenbrood.h"

/* Counts one check.  What follows says which case it was, as for printf. */
#define CHECK(truth, ...) check((truth), #truth, __FILE__, __LINE__, __VA_ARGS__)
void check(bool truth, const char *what, const char *file, int line,
           const char *format, ...);

/* A number by chance, the same in every run. */
uint64_t chance(void);
int64_t chance_between(int64_t first, int64_t last);

/* Integers that any argument may have: both ends, zero, and the neighbours of
 * every limit that the interface names. */
extern const int64_t hard_integers[];
extern const size_t hard_integer_count;

/* Julian dates: not finite, denormal, huge, zeros, and some that are taken. */
typedef struct {
    double julian;
    int64_t status; /* 0, 1 or 2, by Table 1 */
} hard_date;
extern const hard_date hard_dates[];
extern const size_t hard_date_count;

/* The status that a date in minutes, by Table 1, a body and a frame deserve. */
int64_t minutes_status(int64_t minutes);
int64_t body_status(int64_t body);
int64_t frame_status(int64_t frame);

/* The first of two refusals, given in their order. */
int64_t first_refusal(int64_t earlier, int64_t later);

/* Bytes to lend, filled with a pattern in which no two neighbours are alike.
 *
 * The library is compiled without sanitizers, so what it touches beyond the
 * bytes is caught in two ways: behind bytes of kind WALLED comes a page that
 * nobody may touch, which stops a read or a write of one byte too many, and
 * the page before them is compared when they are given back.  Bytes of kind
 * ON_HEAP come from malloc with exactly this length: the sanitizer sees what
 * this program, or a C function called by the library, does beyond them. */
typedef enum { ON_HEAP, WALLED, LENT_KINDS } lent_kind;
typedef struct {
    uint8_t *bytes;
    size_t len;
    void *block; /* what was allocated */
    size_t block_len;
    lent_kind kind;
} lent;

lent lend(lent_kind kind, size_t len);
void give_back(lent *bytes);

/* The pattern anew, and whether the bytes from `first` on still have it. */
void fill(lent *bytes);
bool untouched(const lent *bytes, size_t first);

/* The 38 bytes of a row, by the layout in the header and nothing else. */
void row_bytes(const lindenbrood_row_answer *fields, uint8_t row[38]);
void refused_bytes(int64_t status, uint8_t row[38]);
bool is_row(const lindenbrood_row_answer *fields);
bool same_fields(const lindenbrood_row_answer *a, const lindenbrood_row_answer *b);

void test_examples(void);
void test_numbers(void);
void test_dates(void);
void test_places(void);
void test_vectors(void);
void test_rows(void);
void test_sheets(void);
void test_forms(void);
void test_tables(void);
void test_long_table(void);
void test_viewing(void);
void test_marking(void);

#endif
