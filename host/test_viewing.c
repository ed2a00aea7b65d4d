/* Viewing nights: each search beside a walk over its own dates, oppositions and
 * inferior conjunctions that have been seen, and the refusals in their order.
 *
 * A cross product of exactly 0 is so rare that no search here meets one: that part
 * of the rule is left to the proofs. */
#include <math.h>

#include "test.h"

enum { DAY = 1440, HOURS = 4 * 60 }; /* minutes */

typedef lindenbrood_viewing_answer answer;

/* What a search is asked for. */
typedef struct {
    lindenbrood_date start;
    int64_t table, step, count, body;
} search;

/* Both intervals, written out here once more. */
static const struct {
    int64_t first, last;
} intervals[] = {{-105189840, 26298000}, {-2629254960, 525949200}};

static answer by_table(const search *s)
{
    return lindenbrood_viewing_by_table(s->start, s->table, s->step, s->count, s->body);
}

static answer naming_none(const search *s)
{
    return lindenbrood_viewing(s->start, s->step, s->count, s->body);
}

static bool same(answer a, answer b)
{
    return a.status == b.status && a.minutes == b.minutes && a.looked == b.looked;
}

static bool is(answer a, int64_t status, int64_t minutes, int64_t looked)
{
    return same(a, (answer){status, minutes, looked});
}

#define SEARCH_FORMAT                                                         \
    "form %" PRId64 ", JD %a, minute %" PRId64 ", table %" PRId64 ", step %" PRId64 \
    ", count %" PRId64 ", body %" PRId64
#define SEARCH_PARTS(s)                                                       \
    (s)->start.form, (s)->start.julian, (s)->start.minutes, (s)->table,       \
        (s)->step, (s)->count, (s)->body
#define CHECK_SEARCH(truth, s) CHECK(truth, SEARCH_FORMAT, SEARCH_PARTS(s))

/* The minute of a finite start.  No Julian date here is so near to a half minute
 * that a double's error counts; one far outside may have any minute far outside. */
static int64_t minute_of(lindenbrood_date start)
{
    if (start.form != 0)
        return start.minutes;
    return fabs(start.julian) > 1e9 ? INT64_MAX
                                    : (int64_t)floor((start.julian - 2451545.0) * DAY + 0.5);
}

/* Refusals 10, 1, 11, 2 and 3, in this order. */
static int64_t refusal_of(const search *s)
{
    if (s->step < 1 || s->step > 1000000 || s->count < 1 || s->count > 4000)
        return 10;
    if (s->start.form == 0 && !isfinite(s->start.julian))
        return 1;
    if (s->table != 1 && s->table != 2)
        return 11;
    int64_t first = minute_of(s->start), last = intervals[s->table - 1].last;

    if (first < intervals[s->table - 1].first || first > last
        || (s->count - 1) * s->step > last - first)
        return 2;
    return s->body == 3 ? 3 : body_status(s->body);
}

/* What the rule looks at on a date. */
typedef struct {
    bool placed; /* both bodies have a place */
    int64_t dot, cross;
} sight;

static sight seen_on(int64_t minute, int64_t table, int64_t body)
{
    lindenbrood_date date = lindenbrood_minutes(minute);
    lindenbrood_vector_answer p = lindenbrood_counts_by_table(date, table, body, 1);
    lindenbrood_vector_answer e = lindenbrood_counts_by_table(date, table, 3, 1);

    return (sight){p.status == 0 && e.status == 0, p.x * e.x + p.y * e.y,
                   p.x * e.y - p.y * e.x};
}

static bool opposite_signs(int64_t a, int64_t b)
{
    return (a < 0 && b > 0) || (a > 0 && b < 0);
}

/* The answer by the dates themselves: each one looked at, up to the first that is. */
static answer walked(const search *s)
{
    int64_t start = minute_of(s->start), before = 0; /* 0 is opposite to nothing */
    answer found = {12, 0, s->count};
    bool placed = true;

    for (int64_t k = 0; k < s->count && found.status != 0; k++) {
        sight seen = seen_on(start + k * s->step, s->table, s->body);

        placed = placed && seen.placed;
        if (seen.dot > 0 && (seen.cross == 0 || opposite_signs(seen.cross, before)))
            found = (answer){0, start + k * s->step, k + 1};
        before = seen.cross;
    }
    CHECK_SEARCH(placed, s);
    return found;
}

/* A search beside its refusal or its walk; by Table 1 also the call that names none. */
static answer ask(const search *s)
{
    int64_t refusal = refusal_of(s);
    answer got = by_table(s), wanted = refusal != 0 ? (answer){refusal, 0, 0} : walked(s);

    CHECK(same(got, wanted), SEARCH_FORMAT ": %" PRId64 " %" PRId64 " %" PRId64
          ", wanted %" PRId64 " %" PRId64 " %" PRId64, SEARCH_PARTS(s), got.status,
          got.minutes, got.looked, wanted.status, wanted.minutes, wanted.looked);
    if (s->table == 1)
        CHECK_SEARCH(same(naming_none(s), wanted), s);
    return got;
}

/* Events that have been seen: days from 1 January 2000, and the hour, UT, which
 * eraPlan94 confirms (reference/README.md).  Ephemeris time is a minute later. */
static const struct {
    int64_t body, day, hour;
} events[] = {
    {4, 6782, 5},  /* Mars in opposition, 27 July 2018 */
    {4, 7591, 23}, /* 13 October 2020 */
    {4, 8377, 6},  /* 8 December 2022 */
    {4, 9147, 3},  /* 16 January 2025 */
    {2, 7459, 18}, /* Venus in inferior conjunction, 3 June 2020 */
    {2, 8044, 1},  /* 9 January 2022 */
};
static const size_t event_count = sizeof events / sizeof *events;

/* JD 2451545.0, minute 0, is at noon. */
static int64_t minute_of_event(size_t i)
{
    return events[i].day * DAY + events[i].hour * 60 - DAY / 2 + 1;
}

/* A date found, at most a step after the event.  Table 1 and the event's hour may
 * differ by some hours. */
static bool is_near(int64_t found, size_t i, int64_t step)
{
    int64_t late = found - minute_of_event(i);

    return -HOURS <= late && late < step + HOURS;
}

/* Day by day from 30 and a half days before an event: the date before the one that
 * is found comes half a day before the event, and the found one, the 32nd, half a
 * day after it. */
static search before_event(size_t i, int64_t count)
{
    return (search){lindenbrood_minutes(minute_of_event(i) - 30 * DAY - DAY / 2), 1, DAY, count,
                    events[i].body};
}

static void found_as_seen(void)
{
    for (size_t i = 0; i < event_count; i++) {
        search s = before_event(i, 4000);

        CHECK_SEARCH(is(ask(&s), 0, minute_of_event(i) + DAY / 2, 32), &s);
        s.step = 60;
        CHECK_SEARCH(is_near(ask(&s).minutes, i, s.step), &s);
    }
}

/* Counts of at least its place find the same date with the same number, smaller
 * ones none. */
static void found_with_any_count(void)
{
    static const int64_t counts[] = {1, 2, 30, 31, 32, 33, 64, 1000, 3999, 4000};

    for (size_t i = 0; i < event_count; i++)
        for (size_t c = 0; c < sizeof counts / sizeof *counts; c++) {
            search s = before_event(i, counts[c]);
            answer got = by_table(&s);

            CHECK_SEARCH(same(got, naming_none(&s)), &s);
            if (s.count < 32)
                CHECK_SEARCH(is(got, 12, 0, s.count), &s);
            else
                CHECK_SEARCH(is(got, 0, minute_of_event(i) + DAY / 2, 32), &s);
        }
}

/* The first date has none before it: a search that begins at the date found does
 * not find it, and one that begins a step earlier finds it at the second place. */
static void found_after_the_first_date(void)
{
    for (size_t i = 0; i < event_count; i++) {
        int64_t found = minute_of_event(i) + DAY / 2;
        search s = {lindenbrood_minutes(found), 1, DAY, 1, events[i].body};

        CHECK_SEARCH(is(ask(&s), 12, 0, 1), &s);
        s.count = 100;
        CHECK_SEARCH(is(ask(&s), 12, 0, 100), &s);
        s.start = lindenbrood_minutes(found - DAY);
        CHECK_SEARCH(is(ask(&s), 0, found, 2), &s);
        s.count = 2;
        CHECK_SEARCH(is(ask(&s), 0, found, 2), &s);
        s.count = 1;
        CHECK_SEARCH(is(ask(&s), 12, 0, 1), &s);
    }
}

/* From one opposition of Mars to the next. */
static void one_after_the_other(void)
{
    search s = before_event(0, 4000);

    for (size_t i = 0; i < event_count && events[i].body == 4; i++) {
        answer found = ask(&s);

        CHECK_SEARCH(found.status == 0 && is_near(found.minutes, i, DAY), &s);
        s.start = lindenbrood_minutes(found.minutes + DAY);
    }
}

/* Minute 0 is a date like any other: Jupiter, whose opposition was in October 1999,
 * was on the other side of the Earth 200 days before. */
static void found_on_minute_0(void)
{
    for (int64_t table = 1; table <= 2; table++) {
        search s = {lindenbrood_minutes(-200 * DAY), table, 200 * DAY, 2, 5};

        CHECK_SEARCH(is(ask(&s), 0, 0, 2), &s);
    }
}

/* Steps of some minutes come as often as steps of many days. */
static int64_t chance_step(void)
{
    return chance_between(1, 1000000 >> chance() % 20);
}

static int64_t chance_body(void)
{
    int64_t body = chance_between(1, 8);

    return body < 3 ? body : body + 1;
}

/* A span somewhere in the interval. */
static search chance_search(int64_t table, int64_t step, int64_t count)
{
    int64_t last = intervals[table - 1].last - (count - 1) * step;
    int64_t start = chance_between(intervals[table - 1].first, last);

    return (search){lindenbrood_minutes(start), table, step, count, chance_body()};
}

/* Two searches in four are a day at a time.  The others have any step, so that what
 * is found is no event at times, but still the date that the rule says. */
static void any_search(void)
{
    for (int i = 0; i < 400; i++) {
        int64_t table = i % 2 + 1, length = table == 1 ? 131487840 : 3155204160;
        int64_t step = i % 4 < 2 ? chance_step() : DAY;
        int64_t room = length / step + 1, most = i % 20 < 2 ? 4000 : 400;
        search s = chance_search(table, step, chance_between(1, most < room ? most : room));

        ask(&s);
        /* The double that is nearest to that minute. */
        s.start = lindenbrood_julian(2451545.0 + (double)s.start.minutes / DAY);
        ask(&s);
    }
}

/* The same event by steps of ten days, which the header calls small enough, and to
 * its minute, between the date found day by day and the date before.  The first 32
 * are in the years that both tables cover: there a planet or an Earth of the other
 * table would give another minute. */
static void to_the_minute(void)
{
    for (int i = 0; i < 48; i++) {
        search s = chance_search(i < 32 ? 1 : 2, DAY, 900);
        answer daily, wide, exact;

        s.table = i < 16 ? 1 : 2;
        s.body = i % 8 < 2 ? i % 8 + 1 : i % 8 + 2;
        daily = ask(&s);
        CHECK_SEARCH(daily.status == 0, &s);
        s.step = 10 * DAY;
        s.count = 90;
        wide = ask(&s);
        CHECK_SEARCH(wide.status == 0 && daily.minutes - DAY < wide.minutes
                         && wide.minutes < daily.minutes + s.step, &s);
        s.start = lindenbrood_minutes(daily.minutes - DAY);
        s.step = 1;
        s.count = DAY + 1;
        exact = ask(&s);
        CHECK_SEARCH(exact.status == 0 && daily.minutes - DAY < exact.minutes
                         && exact.minutes <= daily.minutes, &s);
    }
}

/* A span that just fits, and one that is a minute or a date too long at either end. */
static void ends_of(int64_t table, int64_t step, int64_t count)
{
    int64_t first = intervals[table - 1].first;
    int64_t start = intervals[table - 1].last - (count - 1) * step;
    search s = {lindenbrood_minutes(start), table, step, count, 5};

    CHECK_SEARCH(ask(&s).looked > 0, &s);
    s.start.minutes = start + 1;
    CHECK_SEARCH(is(ask(&s), 2, 0, 0), &s);
    s.start.minutes = first;
    CHECK_SEARCH(ask(&s).looked > 0, &s);
    s.start.minutes = first - 1;
    CHECK_SEARCH(is(ask(&s), 2, 0, 0), &s);
    s.start.minutes = first - (count - 1) * step; /* only the last date is within */
    CHECK_SEARCH(count == 1 || is(ask(&s), 2, 0, 0), &s);
    s.start.minutes = start;
    s.count = count + 1;
    CHECK_SEARCH(is(ask(&s), count == 4000 ? 10 : 2, 0, 0), &s);
    s.start = lindenbrood_julian(2451545.0 + (double)(start + 1) / DAY);
    s.count = count;
    CHECK_SEARCH(is(ask(&s), 2, 0, 0), &s);
}

static void ends(void)
{
    static const int64_t spans[][3] = {
        {1, 1, 1}, {1, 1, 2}, {1, 1, 4000}, {1, DAY, 4000}, {1, 1000000, 1},
        {1, 1000000, 2}, {1, 1000000, 132}, {1, 32880, 4000},
        {2, 1, 1}, {2, 1, 2}, {2, 1, 4000}, {2, DAY, 4000}, {2, 1000000, 1},
        {2, 1000000, 2}, {2, 1000000, 3156}, {2, 788998, 4000}};

    for (size_t i = 0; i < sizeof spans / sizeof *spans; i++)
        ends_of(spans[i][0], spans[i][1], spans[i][2]);
    /* The longest span of all is longer than either interval. */
    for (int64_t table = 1; table <= 2; table++) {
        search s = {lindenbrood_minutes(intervals[table - 1].first), table, 1000000, 4000, 5};

        CHECK_SEARCH(is(ask(&s), 2, 0, 0), &s);
    }
}

/* Each refusal beside the next one, and beside all that come later. */
static void order(void)
{
    static const struct {
        search asked;
        int64_t status;
    } rows[] = {
        {{{0, NAN, 0}, 1, 0, 1, 4}, 10},
        {{{0, NAN, 0}, 1, 1, 0, 4}, 10},
        {{{0, INFINITY, 0}, 0, 1000001, 4001, 0}, 10},
        {{{0, NAN, 0}, 0, 1, 1, 4}, 1},
        {{{0, -INFINITY, 0}, 3, 1000000, 4000, 3}, 1},
        {{{1, NAN, 26298001}, 0, 1, 1, 4}, 11},
        {{{1, NAN, INT64_MAX}, 3, 1000000, 4000, 3}, 11},
        {{{0, 1e308, 0}, INT64_MIN, 1, 1, 0}, 11},
        {{{1, NAN, 26298001}, 1, 1, 1, 0}, 2},
        {{{1, NAN, 26298000}, 1, 1, 2, 3}, 2},
        {{{1, NAN, 26298001}, 2, 1, 1, 0}, 3},
        {{{1, NAN, -105189841}, 1, 1, 2, 3}, 2},
        {{{1, NAN, 525949200}, 2, 1, 2, 10}, 2},
        {{{1, NAN, 0}, 1, 1, 1, 0}, 3},
        {{{1, NAN, 0}, 1, 1, 1, 3}, 3},
        {{{1, NAN, 0}, 2, DAY, 4000, 3}, 3},
        {{{1, NAN, 0}, 1, 1, 1, 4}, 12},
    };

    for (size_t i = 0; i < sizeof rows / sizeof *rows; i++) {
        const search *s = &rows[i].asked;

        CHECK_SEARCH(is(ask(s), rows[i].status, 0, rows[i].status == 12 ? s->count : 0), s);
    }
}

/* Steps and counts at their limits and beyond. */
static void limits(void)
{
    static const int64_t steps[] = {INT64_MIN, -1, 0, 1, 2, DAY, 999999, 1000000, 1000001,
                                    4294967297, INT64_MAX};
    static const int64_t counts[] = {INT64_MIN, -1, 0, 1, 2, 3999, 4000, 4001, 4294967297,
                                     INT64_MAX};

    for (size_t t = 0; t < sizeof steps / sizeof *steps; t++)
        for (size_t c = 0; c < sizeof counts / sizeof *counts; c++)
            for (int64_t table = 1; table <= 2; table++) {
                search s = {lindenbrood_minutes(-1000), table, steps[t], counts[c], 4};

                ask(&s);
            }
    CHECK(LINDENBROOD_MOST_DATES == 4000 && LINDENBROOD_BAD_COUNT == 10
              && LINDENBROOD_NO_SHEET == 10 && LINDENBROOD_NO_SUCH_DATE == 12, "names");
}

/* Hard integers in each argument by itself, and in all at once. */
static void hard_searches(void)
{
    for (size_t i = 0; i < hard_integer_count; i++) {
        int64_t h = hard_integers[i];
        lindenbrood_date epoch = lindenbrood_minutes(0), hard = lindenbrood_minutes(h);
        const search asked[] = {
            {hard, 1, 1, 5, 4}, {hard, 1, 1000000, 4000, 4}, {hard, 2, 1, 5, 4},
            {hard, 2, 1000000, 4000, 4}, {epoch, h, DAY, 5, 4}, {epoch, 1, h, 3, 4},
            {epoch, 2, h, 3, 4}, {epoch, 1, 7, h, 4}, {epoch, 2, 7, h, 4},
            {epoch, 1, 7, 3, h}, {epoch, 2, 7, 3, h}, {hard, h, h, h, h},
            {{h, NAN, h}, 2, 1, 1, 9}, {{h, 2451545.0, 0}, 1, 1, 1, 9},
        };

        for (size_t k = 0; k < sizeof asked / sizeof *asked; k++)
            ask(&asked[k]);
    }
}

/* Julian starts of every kind, by each table and by none. */
static void hard_starts(void)
{
    static const int64_t tables[] = {1, 2, 0, 3, INT64_MIN, INT64_MAX, 4294967297};

    for (size_t d = 0; d < hard_date_count; d++)
        for (size_t t = 0; t < sizeof tables / sizeof *tables; t++)
            for (int64_t body = 2; body <= 4; body++) {
                search s = {lindenbrood_julian(hard_dates[d].julian), tables[t], 1, 1, body};
                int64_t dated = first_refusal(hard_dates[d].status, body == 3 ? 3 : 12);

                ask(&s);
                CHECK_SEARCH(naming_none(&s).status == dated, &s);
                s.step = 1000000;
                s.count = 4000;
                ask(&s);
            }
}

/* Form 0 is the Julian date and any other the minutes, whatever stands beside: the
 * same opposition of Mars is found. */
static void forms(void)
{
    static const int64_t minutes_forms[] = {INT64_MIN, -4294967296, -1, 1, 256, 4294967296,
                                            INT64_MAX};
    search s = before_event(0, 32);
    int64_t start = s.start.minutes;
    answer wanted = {0, start + 31 * DAY, 32};

    for (size_t f = 0; f < sizeof minutes_forms / sizeof *minutes_forms; f++)
        for (size_t d = 0; d < hard_date_count; d++) {
            s.start = (lindenbrood_date){minutes_forms[f], hard_dates[d].julian, start};
            CHECK_SEARCH(same(by_table(&s), wanted) && same(naming_none(&s), wanted), &s);
        }
    for (size_t i = 0; i < hard_integer_count; i++) {
        double julian = 2451545.0 + (double)start / DAY;

        s.start = (lindenbrood_date){0, julian, hard_integers[i]};
        CHECK_SEARCH(same(by_table(&s), wanted) && same(naming_none(&s), wanted), &s);
    }
}

/* A start of 22.5 minutes is minute 23, and the steps are added to that. */
static void half_minute_starts(void)
{
    search s = {lindenbrood_julian(2451545.015625), 1, DAY, 4000, 4};
    search t = {lindenbrood_minutes(23), 1, DAY, 4000, 4};

    CHECK_SEARCH(same(ask(&s), ask(&t)), &s);
    s.start = lindenbrood_julian(2451544.984375);
    t.start = lindenbrood_minutes(-22);
    CHECK_SEARCH(same(ask(&s), ask(&t)), &s);
}

void test_viewing(void)
{
    found_as_seen();
    found_with_any_count();
    found_after_the_first_date();
    one_after_the_other();
    found_on_minute_0();
    any_search();
    to_the_minute();
    ends();
    order();
    limits();
    hard_searches();
    hard_starts();
    forms();
    half_minute_starts();
}
