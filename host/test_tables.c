/* The calls that name a table: refusal 11 and its place in the order, the two
 * intervals, and Table 1 as the table of a call that names none. */
#include <math.h>
#include <string.h>

#include "test.h"

/* What the five calls are asked; each takes the parts that it knows. */
typedef struct {
    lindenbrood_date date;
    int64_t table, body;
    int64_t from, to; /* a place is asked for in `to` */
    int64_t x, y, z;
} question;

/* What they answer.  No part has padding in it, so bytes may be compared. */
typedef struct {
    lindenbrood_place_answer place;
    lindenbrood_vector_answer counts, turned;
    lindenbrood_elements_answer elements;
    lindenbrood_angle_answer mean_anomaly;
} answers;

static answers by_table(const question *q)
{
    answers a;

    a.place = lindenbrood_place_by_table(q->date, q->table, q->body, q->to);
    a.counts = lindenbrood_counts_by_table(q->date, q->table, q->body, q->to);
    a.turned = lindenbrood_turn_by_table(q->date, q->table, q->from, q->to, q->x, q->y, q->z);
    a.elements = lindenbrood_elements_by_table(q->date, q->table, q->body);
    a.mean_anomaly = lindenbrood_mean_anomaly_by_table(q->date, q->table, q->body);
    return a;
}

static answers naming_none(const question *q)
{
    answers a;

    a.place = lindenbrood_place(q->date, q->body, q->to);
    a.counts = lindenbrood_counts(q->date, q->body, q->to);
    a.turned = lindenbrood_turn(q->date, q->from, q->to, q->x, q->y, q->z);
    a.elements = lindenbrood_elements(q->date, q->body);
    a.mean_anomaly = lindenbrood_mean_anomaly(q->date, q->body);
    return a;
}

/* Both intervals, written out here a second time. */
static const struct {
    int64_t first, last;
    double first_julian, last_julian;
} intervals[] = {
    {-105189840, 26298000, 2378496.5, 2469807.5},
    {-2629254960, 525949200, 625673.5, 2816787.5},
};

/* Refusals 1, 11 and 2.  A Julian date rounds to its minute, so half a minute
 * outside is taken; dates for which a double's error there counts are in `ends`. */
static int64_t date_status(lindenbrood_date date, int64_t table)
{
    static const double half = 0.5 / 1440.0;

    if (date.form == 0 && !isfinite(date.julian))
        return 1;
    if (table != 1 && table != 2)
        return 11;
    if (date.form != 0)
        return intervals[table - 1].first <= date.minutes
                       && date.minutes <= intervals[table - 1].last ? 0 : 2;
    return intervals[table - 1].first_julian - half < date.julian
                   && date.julian < intervals[table - 1].last_julian + half ? 0 : 2;
}

static int64_t part_status(int64_t part)
{
    return -LINDENBROOD_PART_LIMIT <= part && part <= LINDENBROOD_PART_LIMIT ? 0 : 5;
}

/* An answer begins with its status; a refused one is zeros from there on. */
static bool fits(const void *answer, size_t size, int64_t wanted)
{
    static const uint8_t zeros[sizeof(lindenbrood_elements_answer)] = {0};
    int64_t status;

    memcpy(&status, answer, sizeof status);
    return status == wanted
           && (wanted == 0
               || memcmp((const uint8_t *)answer + sizeof status, zeros,
                         size - sizeof status) == 0);
}

#define CHECK_ASKED(truth, q)                                                         \
    CHECK(truth, "form %" PRId64 ", JD %a, minute %" PRId64 ", table %" PRId64        \
          ", body %" PRId64 ", frames %" PRId64 " and %" PRId64 ", vector %" PRId64   \
          " %" PRId64 " %" PRId64, (q)->date.form, (q)->date.julian,                  \
          (q)->date.minutes, (q)->table, (q)->body, (q)->from, (q)->to, (q)->x, (q)->y, (q)->z)

/* The statuses, zeros with every refusal, and what holds of any good answer. */
static void ask(const question *q)
{
    answers a = by_table(q), none = naming_none(q);
    int64_t dated = date_status(q->date, q->table);
    int64_t bodied = first_refusal(dated, body_status(q->body));
    int64_t placed = first_refusal(bodied, frame_status(q->to));
    int64_t framed = first_refusal(
        dated, first_refusal(frame_status(q->from), frame_status(q->to)));
    int64_t turned = first_refusal(
        framed, first_refusal(part_status(q->x),
                              first_refusal(part_status(q->y), part_status(q->z))));

    CHECK_ASKED(fits(&a.place, sizeof a.place, placed), q);
    CHECK_ASKED(fits(&a.counts, sizeof a.counts, placed), q);
    CHECK_ASKED(fits(&a.turned, sizeof a.turned, turned), q);
    CHECK_ASKED(fits(&a.elements, sizeof a.elements, bodied), q);
    CHECK_ASKED(fits(&a.mean_anomaly, sizeof a.mean_anomaly, bodied), q);
    CHECK_ASKED(a.place.x == (double)a.counts.x / 1e7 && a.place.y == (double)a.counts.y / 1e7
                    && a.place.z == (double)a.counts.z / 1e7, q);
    CHECK_ASKED(-180000000 <= a.mean_anomaly.angle && a.mean_anomaly.angle < 180000000, q);
    CHECK_ASKED(turned != 0 || q->from != q->to
                    || (a.turned.x == q->x && a.turned.y == q->y && a.turned.z == q->z), q);
    CHECK_ASKED(q->table != 1 || memcmp(&a, &none, sizeof a) == 0, q);
}

/* Both tables, and numbers that are none, some of them 1 or 2 to whoever takes
 * fewer bits. */
static const int64_t tables[] = {
    1, 2, INT64_MIN, -1, 0, 3, INT64_MAX, INT64_MIN + 1, INT64_MIN + 2, -4294967295,
    -2, 257, 258, 65537, 65538, 4294967297, 4294967298, 11};
static const size_t table_count = sizeof tables / sizeof *tables;

/* Body, the two frames and a part: good ones, each bad, and all bad at once. */
static const int64_t others[][4] = {
    {4, 1, 5, 1}, {9, 3, 3, -500000000}, {0, 1, 4, 1}, {10, 1, 1, 1}, {4, 0, 2, 1},
    {4, 1, 6, 1}, {4, 5, 1, 500000001}, {INT64_MIN, INT64_MAX, 0, INT64_MIN}};
static const size_t other_count = sizeof others / sizeof *others;

static void ask_with_others(lindenbrood_date date, int64_t table)
{
    for (size_t i = 0; i < other_count; i++) {
        const int64_t *o = others[i];
        question q = {date, table, o[0], o[1], o[2], 2, o[3], -3};

        ask(&q);
    }
}

/* Every number as a table, and every table with any date. */
static void hard_questions(void)
{
    for (size_t t = 0; t < hard_integer_count; t++)
        for (size_t d = 0; d < hard_date_count; d++)
            ask_with_others(lindenbrood_julian(hard_dates[d].julian), hard_integers[t]);
    for (size_t t = 0; t < table_count; t++) {
        for (size_t d = 0; d < hard_date_count; d++)
            ask_with_others(lindenbrood_julian(hard_dates[d].julian), tables[t]);
        for (size_t m = 0; m < hard_integer_count; m++)
            ask_with_others(lindenbrood_minutes(hard_integers[m]), tables[t]);
    }
}

/* Every number as the body, as a frame and as a part, by each table. */
static void hard_others(void)
{
    for (size_t t = 0; t < table_count; t++)
        for (size_t i = 0; i < hard_integer_count; i++)
            for (int at = 0; at < 6; at++) {
                question q = {lindenbrood_minutes(-216374400), tables[t], 5, 1, 4, 1, 2, 3};
                int64_t *parts[] = {&q.body, &q.from, &q.to, &q.x, &q.y, &q.z};

                *parts[at] = hard_integers[i];
                ask(&q);
            }
}

/* The order in numbers.  Each row deserves later refusals as well, if only 5. */
static void order(void)
{
    static const struct {
        lindenbrood_date date;
        int64_t table, body, frame;
        int64_t placed, bodied, turned; /* wanted */
    } rows[] = {
        {{0, NAN, 0}, 0, 0, 0, 1, 1, 1},
        {{0, INFINITY, 0}, 3, 0, 0, 1, 1, 1},
        {{0, -INFINITY, 0}, INT64_MIN, 4, 1, 1, 1, 1},
        {{0, NAN, 0}, 2, 0, 0, 1, 1, 1},
        {{0, 1e308, 0}, INT64_MAX, 0, 0, 11, 11, 11},
        {{0, -0.0, 0}, -1, 0, 0, 11, 11, 11},
        {{1, NAN, INT64_MIN}, 0, 0, 0, 11, 11, 11},
        {{1, NAN, 0}, 3, 0, 0, 11, 11, 11},
        {{1, NAN, 0}, 3, 4, 1, 11, 11, 11},
        {{1, NAN, INT64_MAX}, 1, 0, 0, 2, 2, 2},
        {{1, NAN, 525949201}, 2, 0, 0, 2, 2, 2},
        {{1, NAN, 26298001}, 1, 0, 0, 2, 2, 2},
        {{1, NAN, 26298001}, 2, 0, 0, 3, 3, 4},
        {{1, NAN, 26298001}, 2, 4, 0, 4, 0, 4},
        {{1, NAN, 26298001}, 2, 4, 1, 0, 0, 5},
    };

    for (size_t i = 0; i < sizeof rows / sizeof *rows; i++) {
        question q = {rows[i].date, rows[i].table, rows[i].body, 1, rows[i].frame,
                      INT64_MIN, 0, 0};
        answers a = by_table(&q);

        CHECK_ASKED(a.place.status == rows[i].placed && a.counts.status == rows[i].placed, &q);
        CHECK_ASKED(a.elements.status == rows[i].bodied
                        && a.mean_anomaly.status == rows[i].bodied, &q);
        CHECK_ASKED(a.turned.status == rows[i].turned, &q);
    }
}

/* All five calls on a date, with nothing else to refuse. */
static answers on(lindenbrood_date date, int64_t table)
{
    question q = {date, table, 1, 1, 5, 100000000, -200000000, 300000000};

    return by_table(&q);
}

static bool all_have(const answers *a, int64_t status)
{
    return fits(&a->place, sizeof a->place, status)
           && fits(&a->counts, sizeof a->counts, status)
           && fits(&a->turned, sizeof a->turned, status)
           && fits(&a->elements, sizeof a->elements, status)
           && fits(&a->mean_anomaly, sizeof a->mean_anomaly, status);
}

/* A Julian date is answered as its minute is, or both are refused by 2. */
static void julian_at(double julian, int64_t minutes, int64_t table, int64_t status)
{
    answers a = on(lindenbrood_julian(julian), table);
    answers b = on(lindenbrood_minutes(minutes), table);

    CHECK(all_have(&a, status) && all_have(&b, status),
          "JD %.9f, minute %" PRId64 ", table %" PRId64, julian, minutes, table);
    CHECK(memcmp(&a, &b, sizeof a) == 0, "JD %.9f, minute %" PRId64 ", table %" PRId64,
          julian, minutes, table);
}

/* Both ends of both intervals, one minute beyond, and half a minute beyond. */
static void ends(void)
{
    static const double minute = 1.0 / 1440.0, half = 0.5 / 1440.0;

    for (int64_t table = 1; table <= 2; table++) {
        int64_t first = intervals[table - 1].first, last = intervals[table - 1].last;
        double begin = intervals[table - 1].first_julian;
        double end = intervals[table - 1].last_julian;

        julian_at(begin, first, table, 0);
        julian_at(begin + minute, first + 1, table, 0);
        julian_at(begin - minute, first - 1, table, 2);
        julian_at(nextafter(begin - half, INFINITY), first, table, 0);
        julian_at(nextafter(begin - half, 0.0), first - 1, table, 2);
        julian_at(end, last, table, 0);
        julian_at(end - minute, last - 1, table, 0);
        julian_at(end + minute, last + 1, table, 2);
        julian_at(nextafter(end + half, 0.0), last, table, 0);
        julian_at(nextafter(end + half, INFINITY), last + 1, table, 2);
    }
}

/* What the header calls these ends. */
static void names(void)
{
    CHECK(LINDENBROOD_TABLE_1 == 1 && LINDENBROOD_TABLE_2 == 2, "tables");
    CHECK(LINDENBROOD_NO_SUCH_TABLE == 11, "refusal");
    CHECK(LINDENBROOD_FIRST_MINUTE == intervals[0].first
              && LINDENBROOD_LAST_MINUTE == intervals[0].last, "Table 1");
    CHECK(LINDENBROOD_TABLE_2_FIRST_MINUTE == intervals[1].first
              && LINDENBROOD_TABLE_2_LAST_MINUTE == intervals[1].last, "Table 2");
}

/* Dates that only Table 2 covers: 2 from a call that names none and by Table 1,
 * for every body and frame and every pair of frames, a frame to itself too. */
static void only_by_table_2(void)
{
    static const int64_t minutes[] = {
        -2629254960, -2147483649, -2147483648, -216374400, -105189841, 26298001, 525949200};

    for (size_t i = 0; i < sizeof minutes / sizeof *minutes; i++)
        for (int64_t body = 1; body <= 9; body++)
            for (int64_t pair = 0; pair < 25; pair++) {
                question q = {lindenbrood_minutes(minutes[i]), 2, body, pair / 5 + 1,
                              pair % 5 + 1, 500000000, -500000000, 500000000};
                answers by_2 = by_table(&q), by_none = naming_none(&q), by_1;

                CHECK_ASKED(all_have(&by_2, 0), &q);
                CHECK_ASKED(all_have(&by_none, 2), &q);
                q.table = 1;
                by_1 = by_table(&q);
                CHECK_ASKED(all_have(&by_1, 2), &q);
            }
}

/* Rows and sheets stay with Table 1: a date that only Table 2 covers is none. */
static void rows_stay(void)
{
    lindenbrood_date date = lindenbrood_minutes(-216374400);
    uint8_t rows[2 * LINDENBROOD_ROW_BYTES], refused[LINDENBROOD_ROW_BYTES];
    const lindenbrood_row_answer fields = {0, 0, 4, 1, -216374400, 1, 2, 3};
    lindenbrood_sheet_answer sheet;

    refused_bytes(2, refused);
    CHECK(lindenbrood_row(date, 4, 1, rows, sizeof rows) == 2, "a row");
    CHECK(memcmp(rows, refused, sizeof refused) == 0, "a row");
    sheet = lindenbrood_sheet(date, 1, 2, 4, 1, rows, sizeof rows);
    CHECK(sheet.status == 0 && sheet.good == 0, "a sheet");
    CHECK(memcmp(rows + sizeof refused, refused, sizeof refused) == 0, "a sheet");
    CHECK(lindenbrood_write_row(0, 4, 1, fields.minutes, 1, 2, 3, rows, sizeof rows) == 9,
          "a row from fields");
    row_bytes(&fields, rows);
    CHECK(lindenbrood_read_row(rows, sizeof rows).status == 9, "a row read");
}

/* A frame to itself needs no Earth, and its date is tested all the same. */
static void turns_to_itself(void)
{
    for (int64_t frame = 1; frame <= 5; frame++) {
        question q = {lindenbrood_minutes(-2629254961), 2, 4, frame, frame, 7, -8, 9};

        CHECK(by_table(&q).turned.status == 2, "a minute before, frame %" PRId64, frame);
        q.date = lindenbrood_minutes(525949201);
        CHECK(by_table(&q).turned.status == 2, "a minute after, frame %" PRId64, frame);
        q.date = lindenbrood_julian(NAN);
        CHECK(by_table(&q).turned.status == 1, "no date, frame %" PRId64, frame);
        q.date = lindenbrood_minutes(525949200);
        ask(&q);
        q.table = 3;
        CHECK(by_table(&q).turned.status == 11, "no table, frame %" PRId64, frame);
    }
}

/* On a date of both: the elements, M and the places differ.  A turn differs where
 * HEE or HEEQ, and so the Earth, is in it, and nowhere else. */
static void tables_differ(void)
{
    for (int64_t body = 1; body <= 9; body++)
        for (int64_t frame = 1; frame <= 5; frame++) {
            question q = {lindenbrood_minutes(0), 1, body, 1, frame, 100000000, 200000000,
                          -300000000};
            answers a = by_table(&q), b;
            bool same;

            q.table = 2;
            b = by_table(&q);
            same = memcmp(&a.turned, &b.turned, sizeof a.turned) == 0;
            CHECK_ASKED(same == (frame <= 3), &q);
            CHECK_ASKED(memcmp(&a.elements, &b.elements, sizeof a.elements) != 0, &q);
            CHECK_ASKED(a.mean_anomaly.angle != b.mean_anomaly.angle, &q);
            CHECK_ASKED(memcmp(&a.counts, &b.counts, sizeof a.counts) != 0, &q);
            CHECK_ASKED(memcmp(&a.place, &b.place, sizeof a.place) != 0, &q);
        }
}

static int64_t chance_minute(void)
{
    static const int64_t edges[] = {
        -2629254961, -2629254960, -2629254959, -105189841, -105189840, -105189839, -1, 0, 1,
        26297999, 26298000, 26298001, 525949199, 525949200, 525949201};

    switch (chance() % 4) {
    case 0:
        return edges[chance() % (sizeof edges / sizeof *edges)];
    case 1:
        return chance_between(-105189840, 26298000);
    default:
        return chance_between(-2629254960 - 1000, 525949200 + 1000);
    }
}

static lindenbrood_date chance_date(void)
{
    int64_t minute = chance_minute();

    return chance() % 2 ? lindenbrood_minutes(minute)
                        : lindenbrood_julian(2451545.0 + (double)minute / 1440.0);
}

static int64_t chance_part(void)
{
    return chance() % 8 ? chance_between(-500000000, 500000000)
                        : chance_between(499999999, 500000001) * (chance() % 2 ? 1 : -1);
}

/* Mostly by Table 1, whose answers are also those of the calls that name none. */
static void any_question(void)
{
    for (int i = 0; i < 20000; i++) {
        question q = {chance_date(), chance() % 2 ? 1 : chance_between(0, 3),
                      chance_between(0, 10), chance_between(0, 6), chance_between(0, 6),
                      chance_part(), chance_part(), chance_part()};

        ask(&q);
    }
}

/* With form 0 the Julian date counts, whatever minutes stand beside. */
static void wild_minutes(int64_t table)
{
    for (size_t d = 0; d < hard_date_count; d++) {
        answers wanted = on(lindenbrood_julian(hard_dates[d].julian), table);

        for (size_t i = 0; i < hard_integer_count; i++) {
            lindenbrood_date date = {0, hard_dates[d].julian, hard_integers[i]};
            answers got = on(date, table);

            CHECK(memcmp(&got, &wanted, sizeof got) == 0, "JD %a beside minute %" PRId64
                  ", table %" PRId64, date.julian, date.minutes, table);
        }
    }
}

/* With any other form the minutes count, whatever Julian date stands beside. */
static void wild_julian_dates(int64_t table)
{
    static const int64_t forms[] = {INT64_MIN, -4294967296, -1, 1, 256, 4294967296, INT64_MAX};
    static const int64_t minutes[] = {0, -216374400, -2629254961, INT64_MAX};

    for (size_t m = 0; m < sizeof minutes / sizeof *minutes; m++) {
        answers wanted = on(lindenbrood_minutes(minutes[m]), table);

        for (size_t f = 0; f < sizeof forms / sizeof *forms; f++)
            for (size_t d = 0; d < hard_date_count; d++) {
                lindenbrood_date date = {forms[f], hard_dates[d].julian, minutes[m]};
                answers got = on(date, table);

                CHECK(memcmp(&got, &wanted, sizeof got) == 0, "form %" PRId64 ", minute %" PRId64
                      " beside JD %a, table %" PRId64, date.form, date.minutes, date.julian, table);
            }
    }
}

void test_tables(void)
{
    names();
    order();
    ends();
    hard_questions();
    hard_others();
    only_by_table_2();
    turns_to_itself();
    tables_differ();
    any_question();
    rows_stay();
    for (int64_t table = 0; table <= 3; table++) {
        wild_minutes(table);
        wild_julian_dates(table);
    }
}
