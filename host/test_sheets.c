/* Sheets: each row by its own date, the good rows counted, refusals 10 and 8. */
#include <math.h>
#include <string.h>

#include "test.h"

enum { ROW = LINDENBROOD_ROW_BYTES };

/* What a sheet is asked for, and the minute that its start should be. */
typedef struct {
    lindenbrood_date start;
    int64_t minute; /* 0 where the start has none */
    int64_t step, count, body, frame;
} sheet;

static sheet from_minute(int64_t minute, int64_t step, int64_t count, int64_t body,
                         int64_t frame)
{
    return (sheet){lindenbrood_minutes(minute), minute, step, count, body, frame};
}

static sheet from_julian(double julian, int64_t minute, int64_t step, int64_t count,
                         int64_t body, int64_t frame)
{
    return (sheet){lindenbrood_julian(julian), minute, step, count, body, frame};
}

static lindenbrood_sheet_answer ask(const sheet *s, uint8_t *rows, size_t len)
{
    return lindenbrood_sheet(s->start, s->step, s->count, s->body, s->frame, rows, len);
}

static size_t room_of(int64_t count)
{
    return (size_t)count * ROW;
}

/* The single row of row k's own date.  A sum beyond 64 bits is outside the
 * interval, as the greatest number of 64 bits is. */
static void single_row(const sheet *s, int64_t k, uint8_t row[ROW])
{
    lindenbrood_date date = s->start;

    if (date.form != 0 || isfinite(date.julian))
        date = lindenbrood_minutes(s->minute > INT64_MAX - k * s->step
                                       ? INT64_MAX : s->minute + k * s->step);
    lindenbrood_row(date, s->body, s->frame, row, ROW);
}

/* An accepted sheet in bytes enough: all rows, the good ones counted, and the
 * bytes after them as they were. */
static void accepted(const sheet *s, lent_kind kind, size_t more)
{
    size_t room = room_of(s->count);
    lent rows = lend(kind, room + more);
    lindenbrood_sheet_answer answer = ask(s, rows.bytes, rows.len);
    int64_t good = 0, wrong = 0;

    for (int64_t k = 0; k < s->count; k++) {
        uint8_t single[ROW];
        const uint8_t *row = rows.bytes + room_of(k);

        single_row(s, k, single);
        wrong += memcmp(row, single, ROW) != 0;
        good += row[3] == 0;
    }
    CHECK(answer.status == 0, "start %" PRId64 " step %" PRId64 " count %" PRId64,
          s->minute, s->step, s->count);
    CHECK(wrong == 0, "%" PRId64 " rows differ: start %" PRId64 " step %" PRId64
          " count %" PRId64, wrong, s->minute, s->step, s->count);
    CHECK(answer.good == good, "start %" PRId64 " step %" PRId64 ": %" PRId64
          " good rows, not %" PRId64, s->minute, s->step, good, answer.good);
    CHECK(untouched(&rows, room), "bytes after %" PRId64 " rows", s->count);
    give_back(&rows);
}

/* A refused sheet leaves every byte, and no good row. */
static void refused(const sheet *s, int64_t status, size_t len)
{
    for (lent_kind kind = 0; kind < LENT_KINDS; kind++) {
        lent rows = lend(kind, len);
        lindenbrood_sheet_answer answer = ask(s, rows.bytes, rows.len);

        CHECK(answer.status == status && answer.good == 0,
              "wanted %" PRId64 ": step %" PRId64 " count %" PRId64 " in %zu bytes",
              status, s->step, s->count, len);
        CHECK(untouched(&rows, 0), "step %" PRId64 " count %" PRId64 " in %zu bytes",
              s->step, s->count, len);
        give_back(&rows);
    }
}

static bool taken(int64_t step, int64_t count)
{
    return 1 <= step && step <= LINDENBROOD_MOST_STEP && 0 <= count
           && count <= LINDENBROOD_MOST_ROWS;
}

/* Counts and steps at their limits and beyond; 10 comes before 8. */
static void limits(void)
{
    static const int64_t counts[] = {0, 1, 2, 399, 400, 401, -1};
    static const int64_t steps[] = {1, 1440, 1000000, 0, 1000001, -1};

    for (size_t c = 0; c < sizeof counts / sizeof *counts; c++)
        for (size_t t = 0; t < sizeof steps / sizeof *steps; t++) {
            sheet s = from_minute(-1000, steps[t], counts[c], 4, 5);

            if (taken(s.step, s.count)) {
                accepted(&s, ON_HEAP, 0);
                accepted(&s, WALLED, 0);
                accepted(&s, WALLED, 50);
            } else {
                refused(&s, 10, room_of(401));
                refused(&s, 10, 0);
            }
        }
}

/* Every length from 0 to 39 for no row and one row, and around count rows. */
static void lengths(void)
{
    static const int64_t counts[] = {0, 1, 2, 3, 399, 400};
    static const int around[] = {-39, -38, -37, -1, 0, 1, 37, 38, 39};

    for (size_t len = 0; len <= ROW + 1; len++) {
        sheet none = from_minute(0, 1, 0, 4, 1), one = from_minute(0, 1, 1, 4, 1);

        accepted(&none, WALLED, len);
        if (len < ROW)
            refused(&one, 8, len);
        else
            accepted(&one, WALLED, len - ROW);
    }
    for (size_t c = 0; c < sizeof counts / sizeof *counts; c++)
        for (size_t a = 0; a < sizeof around / sizeof *around; a++) {
            sheet s = from_julian(2451545.0, 0, 1440, counts[c], 9, 1);
            int64_t len = (int64_t)room_of(s.count) + around[a];

            if (len >= 0 && around[a] < 0)
                refused(&s, 8, (size_t)len);
            else if (around[a] >= 0)
                accepted(&s, ON_HEAP, (size_t)around[a]);
        }
}

/* Sheets that enter the interval, leave it, or do both. */
static void across_the_ends(void)
{
    for (int i = 0; i < 300; i++) {
        int64_t end = i % 2 ? LINDENBROOD_FIRST_MINUTE : LINDENBROOD_LAST_MINUTE;
        int64_t step = i % 3 ? chance_between(1, 1000000) : chance_between(1, 3);
        int64_t count = chance_between(1, i % 10 ? 30 : 400);
        int64_t start = end - step * chance_between(0, count) + chance_between(-2, 2);
        int64_t body = chance_between(1, 9), frame = chance_between(1, 5);
        sheet s = from_minute(start, step, count, body, frame);

        accepted(&s, i % 2 ? WALLED : ON_HEAP, 0);
        /* The double that is nearest to that minute. */
        s.start = lindenbrood_julian(2451545.0 + (double)start / 1440.0);
        accepted(&s, i % 2 ? ON_HEAP : WALLED, 1);
    }
}

/* A start of 22.5 minutes is minute 23, and the sums go on from there. */
static void half_minute_starts(void)
{
    sheet s = from_julian(2451545.015625, 23, 1, 5, 1, 1);

    accepted(&s, WALLED, 0);
    s = from_julian(2451544.984375, -22, 7, 5, 1, 1);
    accepted(&s, WALLED, 0);
}

/* Enters at its second row, and leaves at the last but one. */
static void known_ends(void)
{
    uint8_t rows[3 * LINDENBROOD_ROW_BYTES];
    lindenbrood_date before = lindenbrood_minutes(LINDENBROOD_FIRST_MINUTE - 1);
    lindenbrood_date near_the_end = lindenbrood_minutes(LINDENBROOD_LAST_MINUTE - 1);
    lindenbrood_sheet_answer a = lindenbrood_sheet(before, 1, 3, 4, 1, rows, sizeof rows);

    CHECK(a.status == 0 && a.good == 2, "enters");
    CHECK(rows[3] == 2 && rows[ROW + 3] == 0 && rows[2 * ROW + 3] == 0, "enters");
    a = lindenbrood_sheet(near_the_end, 1, 3, 4, 1, rows, sizeof rows);
    CHECK(a.status == 0 && a.good == 2, "leaves");
    CHECK(rows[3] == 0 && rows[ROW + 3] == 0 && rows[2 * ROW + 3] == 2, "leaves");
}

/* Hard integers in each argument by itself; sums never wrap. */
static void hard_sheets(void)
{
    for (size_t i = 0; i < hard_integer_count; i++) {
        int64_t h = hard_integers[i];
        const sheet asked[] = {
            from_minute(h, 1, 5, 4, 1), from_minute(h, 1000000, 400, 4, 1),
            from_minute(0, h, 3, 4, 1), from_minute(0, 7, h, 4, 1),
            from_minute(0, 7, 3, h, 1), from_minute(0, 7, 3, 4, h),
            from_minute(h, h, h, h, h),
        };

        for (size_t k = 0; k < sizeof asked / sizeof *asked; k++) {
            const sheet *s = &asked[k];

            if (taken(s->step, s->count)) {
                accepted(s, WALLED, 3);
            } else {
                refused(s, 10, 0);
                refused(s, 10, 3 * ROW);
            }
        }
    }
}

/* Julian starts: every row has the start's own refusal, or is out for good. */
static void hard_starts(void)
{
    for (size_t i = 0; i < hard_date_count; i++) {
        const hard_date *d = &hard_dates[i];
        if (d->status == 0)
            continue;
        lindenbrood_date start = lindenbrood_julian(d->julian);
        lent rows = lend(WALLED, room_of(3));
        lindenbrood_sheet_answer a = lindenbrood_sheet(start, 1, 3, 0, 0, rows.bytes, rows.len);
        uint8_t wanted[ROW];

        refused_bytes(d->status, wanted);
        CHECK(a.status == 0 && a.good == 0, "JD %a", d->julian);
        for (size_t k = 0; k < 3; k++)
            CHECK(memcmp(rows.bytes + k * ROW, wanted, ROW) == 0, "JD %a, row %zu",
                  d->julian, k);
        give_back(&rows);
        rows = lend(WALLED, room_of(3) - 1);
        a = lindenbrood_sheet(start, 1, 3, 0, 0, rows.bytes, rows.len);
        CHECK(a.status == 8 && a.good == 0 && untouched(&rows, 0), "JD %a", d->julian);
        give_back(&rows);
    }
}

/* 10, then 8; in the rows 1, 2, 3, 4. */
static void order(void)
{
    sheet s = from_julian(NAN, 0, 0, 1, 0, 0);

    refused(&s, 10, 0);
    s.step = 1;
    refused(&s, 8, ROW - 1);
    accepted(&s, WALLED, 0);
    s = from_minute(INT64_MAX, 1000000, 400, 0, 0);
    accepted(&s, WALLED, 0);
    /* Two dates within, bodies refused all the same. */
    s = from_minute(26298000 - 1000000, 1000000, 400, 0, 0);
    accepted(&s, WALLED, 0);
    s.body = 4;
    accepted(&s, WALLED, 0);
}

/* One buffer: a good sheet, then a refused call, then one with no good row. */
static void stale_sheet(void)
{
    lindenbrood_date epoch = lindenbrood_minutes(0), beyond = lindenbrood_minutes(26298001);
    lent rows = lend(WALLED, room_of(10));
    uint8_t monday[10 * LINDENBROOD_ROW_BYTES], wanted[ROW];
    lindenbrood_sheet_answer a =
        lindenbrood_sheet(epoch, 1440, 10, 6, 5, rows.bytes, rows.len);

    CHECK(a.status == 0 && a.good == 10, "the good sheet");
    memcpy(monday, rows.bytes, rows.len);
    a = lindenbrood_sheet(epoch, 0, 10, 6, 5, rows.bytes, rows.len);
    CHECK(a.status == 10 && a.good == 0 && memcmp(monday, rows.bytes, rows.len) == 0,
          "refused: the bytes are as they were, and no row of them is good");
    a = lindenbrood_sheet(beyond, 1, 10, 6, 5, rows.bytes, rows.len);
    CHECK(a.status == 0 && a.good == 0, "no good row");
    refused_bytes(2, wanted);
    for (size_t k = 0; k < 10; k++)
        CHECK(memcmp(rows.bytes + k * ROW, wanted, ROW) == 0, "row %zu", k);
    give_back(&rows);
}

static void nothing_lent(void)
{
    lindenbrood_sheet_answer a =
        lindenbrood_sheet(lindenbrood_minutes(0), 1, 0, 4, 1, NULL, 0);

    CHECK(a.status == 0 && a.good == 0, "no row into no bytes");
    a = lindenbrood_sheet(lindenbrood_julian(NAN), 1, 1, 4, 1, NULL, 0);
    CHECK(a.status == 8 && a.good == 0, "a row into no bytes");
}

void test_sheets(void)
{
    limits();
    lengths();
    across_the_ends();
    half_minute_starts();
    known_ends();
    hard_sheets();
    hard_starts();
    order();
    stale_sheet();
    nothing_lent();
}
