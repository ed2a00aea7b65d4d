/* Chance, hard numbers, lent bytes and the layout of a row.  See test.h. */
#define _DEFAULT_SOURCE /* MAP_ANONYMOUS */
#include <float.h>
#include <math.h>
#include <stdlib.h>
#include <string.h>
#include <sys/mman.h>
#include <unistd.h>

#include "test.h"

/* Marsaglia's xorshift: the same numbers on every machine. */
uint64_t chance(void)
{
    static uint64_t state = 88172645463325252u;

    state ^= state << 13;
    state ^= state >> 7;
    state ^= state << 17;
    return state;
}

int64_t chance_between(int64_t first, int64_t last)
{
    return first + (int64_t)(chance() % ((uint64_t)(last - first) + 1));
}

const int64_t hard_integers[] = {
    INT64_MIN, INT64_MIN + 1, INT64_MIN / 2, INT64_MIN / 1440,
    -4294967295, -2629254961, -2629254960, -2147483649, INT32_MIN, -1000000000,
    -500000001, -500000000, -180000001, -180000000,
    -105189841, -105189840, -105189839, -1000001, -257, -256, -1,
    0, 1, 2, 3, 4, 5, 6, 7, 8, 9, 10, 11, 37, 38, 39, 255, 256, 257, 260,
    399, 400, 401, 3999, 4000, 4001, 1000000, 1000001, 26297999, 26298000, 26298001,
    90000000, 90000001, 179999999, 180000000, 360000000,
    500000000, 500000001, 525949200, 525949201, INT32_MAX, 2147483648, 4294967296, 4294967300,
    INT64_MAX / 1440, INT64_MAX / 38, INT64_MAX / 38 + 1, INT64_MAX / 2,
    INT64_MAX - 1, INT64_MAX,
};
const size_t hard_integer_count = sizeof hard_integers / sizeof *hard_integers;

const hard_date hard_dates[] = {
    {NAN, 1}, {-NAN, 1}, {INFINITY, 1}, {-INFINITY, 1},
    {0.0, 2}, {-0.0, 2},
    {5e-324, 2}, {-5e-324, 2}, /* the least denormals */
    {DBL_MIN / 2, 2}, {-DBL_MIN / 2, 2},
    {DBL_MIN, 2}, {-DBL_MIN, 2},
    {DBL_EPSILON, 2}, {1.0, 2}, {-1.0, 2},
    {1e308, 2}, {-1e308, 2}, {DBL_MAX, 2}, {-DBL_MAX, 2},
    {9223372036854775808.0, 2}, {-9223372036854775808.0, 2},
    {6.4e15, 2}, {-6.4e15, 2}, /* the minute just fits 64 bits */
    {6.5e15, 2}, {-6.5e15, 2}, /* and just does not */
    {12810238942527622.0, 2}, {-12810238937624532.0, 2}, /* in it but for 2^64 minutes */
    {5434197.0, 2}, {-531107.0, 2},                      /* in it but for 2^32 minutes */
    {2469808.0, 2}, {2378496.0, 2},
    {2378496.5, 0}, {2469807.5, 0}, {2451545.0, 0},
    {2451545.015625, 0}, {2451544.984375, 0}, {2460000.123456789, 0},
};
const size_t hard_date_count = sizeof hard_dates / sizeof *hard_dates;

int64_t minutes_status(int64_t minutes)
{
    return -105189840 <= minutes && minutes <= 26298000 ? 0 : 2;
}

int64_t body_status(int64_t body)
{
    return 1 <= body && body <= 9 ? 0 : 3;
}

int64_t frame_status(int64_t frame)
{
    return 1 <= frame && frame <= 5 ? 0 : 4;
}

int64_t first_refusal(int64_t earlier, int64_t later)
{
    return earlier != 0 ? earlier : later;
}

static uint8_t pattern(size_t at)
{
    return (uint8_t)(0xa5u ^ (at * 29u));
}

static void must(bool truth)
{
    if (!truth)
        abort(); /* no memory: nothing can be tested */
}

lent lend(lent_kind kind, size_t len)
{
    lent made = {NULL, len, NULL, len, kind};

    if (kind == ON_HEAP) {
        made.block = malloc(len);
        must(made.block != NULL || len == 0);
        made.bytes = made.block;
    } else {
        size_t page = (size_t)sysconf(_SC_PAGESIZE);
        size_t room = (len / page + 2) * page; /* at least a page before */

        made.block_len = room + page;
        made.block = mmap(NULL, made.block_len, PROT_READ | PROT_WRITE,
                          MAP_PRIVATE | MAP_ANONYMOUS, -1, 0);
        must(made.block != MAP_FAILED);
        must(mprotect((uint8_t *)made.block + room, page, PROT_NONE) == 0);
        made.bytes = (uint8_t *)made.block + room - len;
        for (uint8_t *p = made.block; p < made.bytes; p++)
            *p = pattern((size_t)(p - (uint8_t *)made.block));
    }
    fill(&made);
    return made;
}

void give_back(lent *bytes)
{
    if (bytes->kind == ON_HEAP) {
        free(bytes->block);
        return;
    }
    const uint8_t *start = bytes->block;
    size_t before = (size_t)(bytes->bytes - start), changed = 0;

    for (size_t i = 0; i < before; i++)
        changed += start[i] != pattern(i);
    CHECK(changed == 0, "%zu bytes before the %zu lent ones", changed, bytes->len);
    must(munmap(bytes->block, bytes->block_len) == 0);
}

void fill(lent *bytes)
{
    for (size_t i = 0; i < bytes->len; i++)
        bytes->bytes[i] = pattern(i);
}

bool untouched(const lent *bytes, size_t first)
{
    for (size_t i = first; i < bytes->len; i++)
        if (bytes->bytes[i] != pattern(i))
            return false;
    return true;
}

static void put_eight(int64_t number, uint8_t *bytes)
{
    for (int i = 0; i < 8; i++)
        bytes[i] = (uint8_t)((uint64_t)number >> (56 - 8 * i));
}

void row_bytes(const lindenbrood_row_answer *fields, uint8_t row[38])
{
    row[0] = 0;
    row[1] = 36;
    row[2] = 1;
    row[3] = (uint8_t)fields->row_status;
    row[4] = (uint8_t)fields->body;
    row[5] = (uint8_t)fields->frame;
    put_eight(fields->minutes, row + 6);
    put_eight(fields->x, row + 14);
    put_eight(fields->y, row + 22);
    put_eight(fields->z, row + 30);
}

void refused_bytes(int64_t status, uint8_t row[38])
{
    const lindenbrood_row_answer refused = {0, status, 0, 0, 0, 0, 0, 0};

    row_bytes(&refused, row);
}

bool is_row(const lindenbrood_row_answer *fields)
{
    if (fields->row_status == 0)
        return body_status(fields->body) == 0 && frame_status(fields->frame) == 0
               && minutes_status(fields->minutes) == 0;
    return 1 <= fields->row_status && fields->row_status <= 4 && fields->body == 0
           && fields->frame == 0 && fields->minutes == 0 && fields->x == 0
           && fields->y == 0 && fields->z == 0;
}

bool same_fields(const lindenbrood_row_answer *a, const lindenbrood_row_answer *b)
{
    return memcmp(a, b, sizeof *a) == 0;
}
