/* Elements and places: known values, hard integers, order of refusals. */
#include <math.h>

#include "test.h"

/* From reference/exact.py: minute, body, frame, and the place in counts. */
static const int64_t known[][6] = {
    {0, 1, 1, -1300885, -4472921, -245988},
    {0, 2, 1, -7183157, -327067, 410156},
    {0, 3, 1, -1771711, 9672140, -3},
    {0, 4, 1, 13906663, -133909, -344612},
    {0, 5, 1, 39983165, 29457075, -1017177},
    {0, 6, 1, 64147772, 65456602, -3691464},
    {0, 7, 1, 144254490, -137376333, -2380326},
    {0, 8, 1, 168047504, -249926900, 1274031},
    {0, 9, 1, -98830156, -279635676, 58511468},
    {0, 4, 2, 13906663, 14220, -369441},
    {0, 4, 3, 3291023, -13447752, 1363381},
    {0, 4, 4, -2637404, -13654938, -344612},
    {0, 4, 5, -2569276, -13604116, 1363381},
    {-105189840, 9, 5, -248373144, -323211357, -36844099},
    {-105189840, 1, 4, 2921317, 1481010, 398738},
    {26298000, 9, 5, -216795153, -350717813, -40895899},
    {26298000, 1, 4, 2950338, 1300066, 383477},
    /* A sum of step 5 ends at exactly half a unit, which goes away from zero. */
    {-84391832, 1, 1, -3905146, -1462642, 240874},       /* z is 240873 1/2 */
    {-32455384, 1, 1, -3918389, -1358478, 249410},       /* x is -3918388 1/2 */
    {-76582016, 9, 1, 387817701, 265181701, -140562003}, /* y is 265181700 1/2 */
};

static void known_places(void)
{
    for (size_t i = 0; i < sizeof known / sizeof *known; i++) {
        const int64_t *k = known[i];
        lindenbrood_vector_answer v = lindenbrood_counts(lindenbrood_minutes(k[0]), k[1], k[2]);

        CHECK(v.status == 0 && v.x == k[3] && v.y == k[4] && v.z == k[5],
              "body %" PRId64 ", frame %" PRId64 ", minute %" PRId64, k[1], k[2], k[0]);
    }
}

/* A zero is +0.0, in a refused place too. */
static bool is_au(double au, int64_t count)
{
    return au == (double)count / 10000000.0 && (count != 0 || !signbit(au));
}

/* The status, zeros with every refusal, and au as one division of the counts. */
static void place(int64_t minutes, int64_t body, int64_t frame)
{
    int64_t wanted = first_refusal(minutes_status(minutes),
                                   first_refusal(body_status(body), frame_status(frame)));
    lindenbrood_date date = lindenbrood_minutes(minutes);
    lindenbrood_vector_answer c = lindenbrood_counts(date, body, frame);
    lindenbrood_place_answer p = lindenbrood_place(date, body, frame);

    CHECK(c.status == wanted && p.status == wanted,
          "minute %" PRId64 " body %" PRId64 " frame %" PRId64, minutes, body, frame);
    CHECK(wanted == 0 || (c.x | c.y | c.z) == 0,
          "minute %" PRId64 " body %" PRId64 " frame %" PRId64, minutes, body, frame);
    CHECK(is_au(p.x, c.x) && is_au(p.y, c.y) && is_au(p.z, c.z),
          "minute %" PRId64 " body %" PRId64 " frame %" PRId64, minutes, body, frame);
}

static void elements(int64_t minutes, int64_t body)
{
    int64_t wanted = first_refusal(minutes_status(minutes), body_status(body));
    lindenbrood_date date = lindenbrood_minutes(minutes);
    lindenbrood_elements_answer e = lindenbrood_elements(date, body);
    lindenbrood_angle_answer m = lindenbrood_mean_anomaly(date, body);

    CHECK(e.status == wanted && m.status == wanted,
          "minute %" PRId64 " body %" PRId64, minutes, body);
    CHECK(-180000000 <= m.angle && m.angle < 180000000,
          "M, minute %" PRId64 " body %" PRId64, minutes, body);
    if (wanted == 0)
        CHECK(e.a > 0 && 0 < e.e && e.e < LINDENBROOD_E_LIMIT,
              "an ellipse, minute %" PRId64 " body %" PRId64, minutes, body);
    else
        CHECK((e.a | e.e | e.inclination | e.mean_longitude | e.perihelion | e.node
               | m.angle) == 0, "left, minute %" PRId64 " body %" PRId64, minutes, body);
}

static void hard_integers_everywhere(void)
{
    for (size_t i = 0; i < hard_integer_count; i++) {
        int64_t hard = hard_integers[i];

        for (int64_t body = 0; body <= 10; body++)
            elements(hard, body);
        elements(0, hard);
        elements(26298001, hard);
        for (size_t k = 0; k < hard_integer_count; k++) {
            place(hard, hard_integers[k], 5);
            place(hard, 4, hard_integers[k]);
            place(0, hard, hard_integers[k]);
        }
    }
}

/* With a Julian date the order is the same: 1 or 2, then 3, then 4. */
static void order_on_julian_dates(void)
{
    for (size_t i = 0; i < hard_date_count; i++) {
        const hard_date *d = &hard_dates[i];
        lindenbrood_date date = lindenbrood_julian(d->julian);
        int64_t with_body = first_refusal(d->status, 3);
        int64_t with_frame = first_refusal(d->status, 4);

        CHECK(lindenbrood_counts(date, 0, 0).status == with_body, "JD %a", d->julian);
        CHECK(lindenbrood_place(date, 0, 0).status == with_body, "JD %a", d->julian);
        CHECK(lindenbrood_counts(date, 9, 0).status == with_frame, "JD %a", d->julian);
        CHECK(lindenbrood_place(date, 9, 0).status == with_frame, "JD %a", d->julian);
        CHECK(lindenbrood_elements(date, 10).status == with_body, "JD %a", d->julian);
        CHECK(lindenbrood_mean_anomaly(date, INT64_MIN).status == with_body, "JD %a",
              d->julian);
    }
}

static void any_place(void)
{
    for (int i = 0; i < 5000; i++)
        place(chance_between(LINDENBROOD_FIRST_MINUTE - 1000, LINDENBROOD_LAST_MINUTE + 1000),
              chance_between(0, 10), chance_between(0, 6));
}

void test_places(void)
{
    known_places();
    hard_integers_everywhere();
    order_on_julian_dates();
    any_place();
}
