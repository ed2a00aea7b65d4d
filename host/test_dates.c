/* Julian dates: what is not finite, what is outside, and the exact minute. */
#include <math.h>

#include "test.h"

static bool same_elements(double julian, int64_t minutes)
{
    lindenbrood_elements_answer a = lindenbrood_elements(lindenbrood_julian(julian), 1);
    lindenbrood_elements_answer b = lindenbrood_elements(lindenbrood_minutes(minutes), 1);

    return a.status == b.status && a.a == b.a && a.e == b.e
           && a.inclination == b.inclination && a.mean_longitude == b.mean_longitude
           && a.perihelion == b.perihelion && a.node == b.node;
}

static bool is_minute(double julian, int64_t minutes)
{
    /* Mercury's mean longitude differs from minute to minute, so it tells which. */
    return same_elements(julian, minutes) && !same_elements(julian, minutes - 1)
           && !same_elements(julian, minutes + 1);
}

/* Every call on a Julian date gives the date's own refusal, and zeros. */
static void every_call(const hard_date *d)
{
    lindenbrood_date date = lindenbrood_julian(d->julian);
    lindenbrood_elements_answer e = lindenbrood_elements(date, 1);
    lindenbrood_angle_answer m = lindenbrood_mean_anomaly(date, 1);
    lindenbrood_vector_answer c = lindenbrood_counts(date, 1, 1);
    lindenbrood_place_answer p = lindenbrood_place(date, 1, 1);
    lindenbrood_vector_answer t = lindenbrood_turn(date, 1, 5, 1, 2, 3);

    CHECK(e.status == d->status, "elements on JD %a", d->julian);
    CHECK(m.status == d->status, "mean anomaly on JD %a", d->julian);
    CHECK(c.status == d->status, "counts on JD %a", d->julian);
    CHECK(p.status == d->status, "place on JD %a", d->julian);
    CHECK(t.status == d->status, "turn on JD %a", d->julian);
    if (d->status == 0)
        return;
    CHECK((e.a | e.e | e.inclination | e.mean_longitude | e.perihelion | e.node) == 0,
          "elements left on JD %a", d->julian);
    CHECK(m.angle == 0, "mean anomaly left on JD %a", d->julian);
    CHECK((c.x | c.y | c.z) == 0, "counts left on JD %a", d->julian);
    CHECK(p.x == 0 && p.y == 0 && p.z == 0, "place left on JD %a", d->julian);
    CHECK((t.x | t.y | t.z) == 0, "vector left on JD %a", d->julian);
}

/* The odd 64ths of a day are half minutes, and a double holds them exactly. */
static void half_minutes(void)
{
    for (int64_t k = -4000; k <= 4000; k++) {
        int64_t twice = 45 * k + 1;
        int64_t minute = twice >= 0 ? twice / 2 : -((1 - twice) / 2);

        CHECK(is_minute(2451545.0 + (double)k / 64.0, minute), "%" PRId64 "/64", k);
    }
}

static bool is_outside(double julian)
{
    return lindenbrood_elements(lindenbrood_julian(julian), 1).status == 2;
}

/* A date is rounded to its minute first, and only then is the interval tested:
 * half a minute outside is still taken. */
static void ends(void)
{
    double first = 2378496.5 - 0.5 / 1440.0, last = 2469807.5 + 0.5 / 1440.0;

    CHECK(is_minute(2469807.5003, LINDENBROOD_LAST_MINUTE), "the header's example");
    CHECK(is_minute(nextafter(last, 0.0), LINDENBROOD_LAST_MINUTE), "before the end");
    CHECK(is_outside(nextafter(last, INFINITY)), "after the end");
    CHECK(is_minute(nextafter(first, INFINITY), LINDENBROOD_FIRST_MINUTE),
          "after the beginning");
    CHECK(is_outside(nextafter(first, 0.0)), "before the beginning");
}

void test_dates(void)
{
    for (size_t i = 0; i < hard_date_count; i++)
        every_call(&hard_dates[i]);
    half_minutes();
    ends();
}
