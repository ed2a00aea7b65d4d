/* Rows: for a date, from fields, and read; and the story of the stale row. */
#include <math.h>
#include <string.h>

#include "test.h"

enum { ROW = LINDENBROOD_ROW_BYTES };

/* What a row is asked for. */
typedef struct {
    lindenbrood_date date; /* form, Julian date, minutes */
    int64_t body, frame;
    int64_t status; /* wanted, in bytes enough */
} question;

/* A good one, each refusal, and pairs in which the first of two is given.  The
 * member that a form does not name would be answered otherwise. */
static const question questions[] = {
    {{1, NAN, 0}, 4, 1, 0},
    {{2, 2469808.0, -105189840}, 9, 5, 0},
    {{INT64_MIN, 2451545.0, 26298000}, 1, 4, 0},
    {{0, 2451545.015625, INT64_MIN}, 3, 2, 0},
    {{0, NAN, 0}, 4, 1, 1},
    {{0, INFINITY, 26298001}, 4, 1, 1},
    {{0, -INFINITY, 0}, 4, 1, 1},
    {{0, NAN, INT64_MAX}, 0, 0, 1},
    {{0, 1e308, 0}, 4, 1, 2},
    {{0, -1e308, 0}, 10, 6, 2},
    {{0, 5e-324, 0}, 4, 1, 2},
    {{0, -0.0, 0}, 4, 1, 2},
    {{0, 2469808.0, 0}, 4, 1, 2},
    {{1, 2451545.0, 26298001}, 4, 1, 2},
    {{-1, NAN, -105189841}, 0, 0, 2},
    {{1, 2451545.0, INT64_MIN}, 4, 1, 2},
    {{1, INFINITY, INT64_MAX}, 4, 1, 2},
    {{1, NAN, 0}, 0, 1, 3},
    {{INT64_MAX, 1e308, 0}, 10, 6, 3},
    {{0, 2451545.0, 26298001}, INT64_MIN, INT64_MAX, 3},
    {{1, -INFINITY, 0}, 4, 0, 4},
    {{0, 2451545.0, INT64_MIN}, 4, 6, 4},
};
static const size_t question_count = sizeof questions / sizeof *questions;

static int64_t ask(const question *q, uint8_t *row, size_t len)
{
    return lindenbrood_row(q->date, q->body, q->frame, row, len);
}

/* The bytes that the question deserves, its place taken from the counts. */
static void wanted_bytes(const question *q, uint8_t row[ROW])
{
    if (q->status != 0) {
        refused_bytes(q->status, row);
        return;
    }
    /* The one good Julian date is minute 23. */
    int64_t minutes = q->date.form == 0 ? 23 : q->date.minutes;
    lindenbrood_vector_answer v =
        lindenbrood_counts(lindenbrood_minutes(minutes), q->body, q->frame);
    lindenbrood_row_answer fields = {0, 0, q->body, q->frame, minutes, v.x, v.y, v.z};

    row_bytes(&fields, row);
}

/* Every length from 0 to 39, and some longer ones. */
static void lengths_of(const question *q, lent_kind kind)
{
    uint8_t wanted[ROW];

    wanted_bytes(q, wanted);
    for (size_t len = 0; len <= 3 * ROW; len += len <= ROW ? 1 : 19) {
        lent row = lend(kind, len);
        int64_t status = ask(q, row.bytes, row.len);

        if (len < ROW) {
            CHECK(status == 8, "%zu bytes", len);
            CHECK(untouched(&row, 0), "%zu bytes", len);
        } else {
            CHECK(status == q->status, "wanted %" PRId64 ", %zu bytes", q->status, len);
            CHECK(memcmp(row.bytes, wanted, ROW) == 0, "%zu bytes", len);
            CHECK(untouched(&row, ROW), "bytes after the row, %zu bytes", len);
        }
        give_back(&row);
    }
}

/* One buffer, used for a good date and then for a refused one: the projector
 * drew Monday's numbers.  No byte of the first row may be left. */
static void stale_row(const question *good, const question *refused)
{
    uint8_t wanted[ROW], monday[ROW];
    lent row = lend(WALLED, ROW);

    CHECK(ask(good, row.bytes, row.len) == 0, "the good row");
    memcpy(monday, row.bytes, ROW);
    CHECK(ask(refused, row.bytes, row.len) == refused->status, "the refused row");
    refused_bytes(refused->status, wanted);
    CHECK(memcmp(row.bytes, wanted, ROW) == 0, "status %" PRId64, refused->status);
    for (size_t i = 3; i < ROW; i++)
        CHECK(monday[i] == 0 || row.bytes[i] != monday[i], "byte %zu of the first row", i);
    lindenbrood_row_answer read = lindenbrood_read_row(row.bytes, row.len);
    CHECK(read.status == 0 && read.row_status == refused->status, "the row read");
    CHECK((read.body | read.frame | read.minutes | read.x | read.y | read.z) == 0,
          "status %" PRId64, refused->status);

    /* The same over a row in which no byte of a number is zero. */
    CHECK(lindenbrood_write_row(0, 9, 5, -1, -1, -1, -1, row.bytes, row.len) == 0, "ones");
    CHECK(ask(refused, row.bytes, row.len) == refused->status, "the refused row");
    CHECK(memcmp(row.bytes, wanted, ROW) == 0, "status %" PRId64, refused->status);

    /* And a good date after the refused one has its whole row again. */
    CHECK(ask(good, row.bytes, row.len) == 0, "the good row again");
    CHECK(memcmp(row.bytes, monday, ROW) == 0, "the good row again");
    give_back(&row);
}

static void stale_rows(void)
{
    for (size_t g = 0; g < question_count; g++)
        for (size_t r = 0; r < question_count; r++)
            if (questions[g].status == 0 && questions[r].status != 0)
                stale_row(&questions[g], &questions[r]);
}

/* A hard date, body or frame, each beside good ones. */
static void hard_questions(void)
{
    for (size_t i = 0; i < hard_integer_count; i++) {
        int64_t h = hard_integers[i];
        int64_t first = first_refusal(minutes_status(h),
                                      first_refusal(body_status(h), frame_status(h)));
        const question asked[] = {
            {lindenbrood_minutes(h), 4, 1, minutes_status(h)},
            {lindenbrood_minutes(0), h, 1, body_status(h)},
            {lindenbrood_minutes(0), 4, h, frame_status(h)},
            {lindenbrood_minutes(h), h, h, first},
        };

        for (size_t k = 0; k < sizeof asked / sizeof *asked; k++) {
            uint8_t row[ROW], wanted[ROW];

            wanted_bytes(&asked[k], wanted);
            CHECK(ask(&asked[k], row, ROW) == asked[k].status, "%" PRId64, h);
            CHECK(memcmp(row, wanted, ROW) == 0, "%" PRId64, h);
        }
    }
    for (size_t i = 0; i < hard_date_count; i++) {
        const hard_date *d = &hard_dates[i];
        uint8_t row[ROW];
        int64_t status = lindenbrood_row(lindenbrood_julian(d->julian), 9, 5, row, ROW);

        CHECK(status == d->status && row[3] == status, "JD %a", d->julian);
    }
}

static int64_t write_fields(const lindenbrood_row_answer *f, uint8_t *row, size_t len)
{
    return lindenbrood_write_row(f->row_status, f->body, f->frame, f->minutes,
                                 f->x, f->y, f->z, row, len);
}

/* Written if the reader would take it, and then read back as it was. */
static void round_trip(const lindenbrood_row_answer *fields)
{
    uint8_t wanted[ROW], again[ROW];
    lent row = lend(ON_HEAP, ROW + 2);
    int64_t status = write_fields(fields, row.bytes, row.len);

    if (!is_row(fields)) {
        CHECK(status == 9, "fields %" PRId64 " %" PRId64, fields->row_status, fields->body);
        CHECK(untouched(&row, 0), "refused fields");
        give_back(&row);
        return;
    }
    row_bytes(fields, wanted);
    CHECK(status == 0, "fields %" PRId64 " %" PRId64, fields->row_status, fields->body);
    CHECK(memcmp(row.bytes, wanted, ROW) == 0, "the bytes written");
    CHECK(untouched(&row, ROW), "bytes after the row");
    lindenbrood_row_answer read = lindenbrood_read_row(row.bytes, row.len);
    CHECK(same_fields(&read, fields), "read back");
    CHECK(write_fields(&read, again, ROW) == 0 && memcmp(again, wanted, ROW) == 0, "written again");
    give_back(&row);
}

static const lindenbrood_row_answer good_fields = {0, 0, 4, 1, -1, -2, 3, INT64_MIN};
static const lindenbrood_row_answer refused_fields = {0, 2, 0, 0, 0, 0, 0, 0};

/* Every field by itself takes every hard integer, in a good and a refused row. */
static void hard_fields(void)
{
    for (size_t i = 0; i < hard_integer_count; i++)
        for (int at = 0; at < 14; at++) {
            lindenbrood_row_answer f = at < 7 ? good_fields : refused_fields;
            int64_t *parts[] = {&f.row_status, &f.body, &f.frame, &f.minutes,
                                &f.x, &f.y, &f.z};

            *parts[at % 7] = hard_integers[i];
            round_trip(&f);
        }
    for (int i = 0; i < 5000; i++) {
        lindenbrood_row_answer f = {
            0, 0, chance_between(1, 9), chance_between(1, 5),
            chance_between(LINDENBROOD_FIRST_MINUTE, LINDENBROOD_LAST_MINUTE),
            (int64_t)chance(), (int64_t)chance(), (int64_t)chance()};

        round_trip(&f);
    }
}

/* 8 comes before 9, and neither writes. */
static void short_writes(void)
{
    for (size_t len = 0; len <= ROW + 1; len++)
        for (lent_kind kind = 0; kind < LENT_KINDS; kind++) {
            lent row = lend(kind, len);
            int64_t bad = lindenbrood_write_row(5, 5, 5, 5, 5, 5, 5, row.bytes, row.len);

            CHECK(bad == (len < ROW ? 8 : 9), "%zu bytes", len);
            CHECK(untouched(&row, 0), "%zu bytes", len);
            CHECK(write_fields(&good_fields, row.bytes, row.len) == (len < ROW ? 8 : 0),
                  "%zu bytes", len);
            CHECK(untouched(&row, len < ROW ? 0 : ROW), "%zu bytes", len);
            give_back(&row);
        }
}

static int64_t eight(const uint8_t *bytes)
{
    uint64_t number = 0;

    for (int i = 0; i < 8; i++)
        number = number << 8 | bytes[i];
    return (int64_t)number;
}

/* What a reader should make of 38 bytes. */
static lindenbrood_row_answer wanted_reading(const uint8_t *b)
{
    static const lindenbrood_row_answer none = {9, 0, 0, 0, 0, 0, 0, 0};
    lindenbrood_row_answer f = {0, b[3], b[4], b[5], eight(b + 6), eight(b + 14),
                                eight(b + 22), eight(b + 30)};

    return b[0] == 0 && b[1] == 36 && b[2] == 1 && is_row(&f) ? f : none;
}

/* Every byte of a row takes every value: what is no row any more is refused. */
static void damaged(const lindenbrood_row_answer *fields)
{
    for (size_t at = 0; at < ROW; at++)
        for (int value = 0; value < 256; value++) {
            uint8_t row[ROW], before[ROW];

            row_bytes(fields, row);
            row[at] = (uint8_t)value;
            memcpy(before, row, ROW);
            lindenbrood_row_answer wanted = wanted_reading(row);
            lindenbrood_row_answer read = lindenbrood_read_row(row, ROW);
            CHECK(same_fields(&read, &wanted), "byte %zu is %d", at, value);
            CHECK(memcmp(row, before, ROW) == 0, "read only, byte %zu", at);
        }
}

/* A slice under 38 bytes is no row, whatever it begins with. */
static void short_readings(const lindenbrood_row_answer *fields)
{
    for (size_t len = 0; len <= ROW + 1; len++)
        for (lent_kind kind = 0; kind < LENT_KINDS; kind++) {
            uint8_t whole[ROW];
            lent row = lend(kind, len);

            row_bytes(fields, whole);
            if (len > 0)
                memcpy(row.bytes, whole, len < ROW ? len : ROW);
            lindenbrood_row_answer none = {9, 0, 0, 0, 0, 0, 0, 0};
            lindenbrood_row_answer read = lindenbrood_read_row(row.bytes, row.len);
            CHECK(same_fields(&read, len < ROW ? &none : fields), "%zu bytes", len);
            give_back(&row);
        }
}

/* With no byte lent the address is not used. */
static void nothing_lent(void)
{
    CHECK(lindenbrood_row(lindenbrood_minutes(0), 4, 1, NULL, 0) == 8, "row");
    CHECK(lindenbrood_row(lindenbrood_julian(NAN), 0, 0, NULL, 0) == 8, "row");
    CHECK(lindenbrood_write_row(0, 4, 1, 0, 0, 0, 0, NULL, 0) == 8, "write");
    CHECK(lindenbrood_read_row(NULL, 0).status == 9, "read");
}

void test_rows(void)
{
    for (size_t i = 0; i < question_count; i++)
        for (lent_kind kind = 0; kind < LENT_KINDS; kind++)
            lengths_of(&questions[i], kind);
    stale_rows();
    hard_questions();
    hard_fields();
    short_writes();
    damaged(&good_fields);
    damaged(&refused_fields);
    short_readings(&good_fields);
    short_readings(&refused_fields);
    nothing_lent();
}
