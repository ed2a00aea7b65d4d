/* Vectors turned between frames and to RTN: refusals, order, hard integers,
 * opposites, and sums that end at half a unit. */
#include "test.h"

static bool in_reach(int64_t part)
{
    return -LINDENBROOD_PART_LIMIT <= part && part <= LINDENBROOD_PART_LIMIT;
}

static bool zeros(const lindenbrood_vector_answer *v)
{
    return (v->x | v->y | v->z) == 0;
}

static void turn(int64_t minutes, int64_t from, int64_t to, int64_t x, int64_t y, int64_t z)
{
    int64_t frames = first_refusal(frame_status(from), frame_status(to));
    int64_t parts = in_reach(x) && in_reach(y) && in_reach(z) ? 0 : 5;
    int64_t wanted = first_refusal(minutes_status(minutes), first_refusal(frames, parts));
    lindenbrood_vector_answer v =
        lindenbrood_turn(lindenbrood_minutes(minutes), from, to, x, y, z);

    CHECK(v.status == wanted, "minute %" PRId64 ", %" PRId64 " to %" PRId64, minutes, from, to);
    CHECK(wanted == 0 || zeros(&v), "minute %" PRId64 ", %" PRId64 " to %" PRId64,
          minutes, from, to);
    CHECK(wanted != 0 || from != to || (v.x == x && v.y == y && v.z == z),
          "frame %" PRId64 " to itself", from);
}

static void hard_turns(void)
{
    for (size_t i = 0; i < hard_integer_count; i++) {
        int64_t hard = hard_integers[i];

        for (int64_t other = 0; other <= 6; other++) {
            turn(hard, other, 5, 1, 2, 3);
            turn(0, hard, other, 1, 2, 3);
            turn(0, other, hard, 1, 2, 3);
            turn(0, other, 5, hard, 2, 3);
            turn(0, other, 4, 1, hard, 3);
            turn(0, 1, other, 1, 2, hard);
            turn(26298001, other, other, hard, hard, hard);
        }
    }
}

/* All corners of the reach, between every pair, on both ends of the interval. */
static void corners(void)
{
    static const int64_t limit = LINDENBROOD_PART_LIMIT;

    for (int64_t from = 1; from <= 5; from++)
        for (int64_t to = 1; to <= 5; to++)
            for (int corner = 0; corner < 8; corner++) {
                int64_t x = corner & 1 ? limit : -limit;
                int64_t y = corner & 2 ? limit : -limit;
                int64_t z = corner & 4 ? limit : -limit;

                turn(LINDENBROOD_FIRST_MINUTE, from, to, x, y, z);
                turn(LINDENBROOD_LAST_MINUTE, from, to, x, y, z);
                turn(0, from, to, x + (x > 0 ? 1 : -1), y, z);
            }
}

/* The date is tested for every pair, also where it moves nothing. */
static void dates_come_first(void)
{
    for (size_t i = 0; i < hard_date_count; i++)
        for (int64_t from = 0; from <= 6; from++)
            for (int64_t to = 0; to <= 6; to++) {
                int64_t frames = first_refusal(frame_status(from), frame_status(to));
                lindenbrood_vector_answer v = lindenbrood_turn(
                    lindenbrood_julian(hard_dates[i].julian), from, to, 0, 0, INT64_MIN);
                int64_t wanted = first_refusal(hard_dates[i].status,
                                               first_refusal(frames, 5));

                CHECK(v.status == wanted && zeros(&v), "JD %a, %" PRId64 " to %" PRId64,
                      hard_dates[i].julian, from, to);
            }
}

/* HAE to a frame and back moves no coordinate by more than some units. */
static void there_and_back(void)
{
    for (int i = 0; i < 5000; i++) {
        lindenbrood_date date = lindenbrood_minutes(
            chance_between(LINDENBROOD_FIRST_MINUTE, LINDENBROOD_LAST_MINUTE));
        int64_t frame = chance_between(2, 5);
        int64_t x = chance_between(-250000000, 250000000);
        int64_t y = chance_between(-250000000, 250000000);
        int64_t z = chance_between(-250000000, 250000000);
        lindenbrood_vector_answer v = lindenbrood_turn(date, 1, frame, x, y, z);
        lindenbrood_vector_answer w = lindenbrood_turn(date, frame, 1, v.x, v.y, v.z);

        CHECK(v.status == 0 && w.status == 0, "frame %" PRId64, frame);
        CHECK(-2000 < w.x - x && w.x - x < 2000 && -2000 < w.y - y && w.y - y < 2000
                  && -2000 < w.z - z && w.z - z < 2000, "frame %" PRId64, frame);
    }
}

/* Every place in one of the six arguments; 5 comes before 6. */
static void hard_rtn(void)
{
    for (size_t i = 0; i < hard_integer_count; i++)
        for (int at = 0; at < 6; at++) {
            int64_t g[6] = {10000000, 20000000, 3000000, 1, 2, 3};

            g[at] = hard_integers[i];
            lindenbrood_vector_answer v =
                lindenbrood_to_rtn(g[0], g[1], g[2], g[3], g[4], g[5]);
            lindenbrood_vector_answer w =
                lindenbrood_from_rtn(g[0], g[1], g[2], g[3], g[4], g[5]);
            int64_t wanted = in_reach(g[at]) ? 0 : 5;

            CHECK(v.status == wanted && w.status == wanted, "argument %d: %" PRId64, at, g[at]);
            CHECK(wanted == 0 || (zeros(&v) && zeros(&w)), "argument %d: %" PRId64, at, g[at]);
        }
}

static void no_direction(void)
{
    /* 50 au along the Sun's axis, from reference/exact.py. */
    static const int64_t axis[] = {61160635, -15521460, 496002286};
    lindenbrood_vector_answer v = lindenbrood_to_rtn(axis[0], axis[1], axis[2], 1, 2, 3);

    CHECK(v.status == 6 && zeros(&v), "on the axis");
    v = lindenbrood_from_rtn(-axis[0], -axis[1], -axis[2], 1, 2, 3);
    CHECK(v.status == 6 && zeros(&v), "on the axis, below");
    v = lindenbrood_to_rtn(0, 99999, 0, 1, 2, 3);
    CHECK(v.status == 6 && zeros(&v), "L of r 99,999");
    v = lindenbrood_from_rtn(99999, 447, 0, 1, 2, 3); /* L is 99,999 still */
    CHECK(v.status == 6 && zeros(&v), "L of r just under 100,000");
    CHECK(lindenbrood_to_rtn(0, 100000, 0, 1, 2, 3).status == 0, "L of r 100,000");
    CHECK(lindenbrood_to_rtn(99999, 448, 0, 1, 2, 3).status == 0, "L of r 100,000");
    CHECK(lindenbrood_to_rtn(0, 0, 0, 0, 0, 500000001).status == 5, "5 before 6");
    CHECK(lindenbrood_from_rtn(0, 0, 0, INT64_MIN, 0, 0).status == 5, "5 before 6");
}

/* The same status, and opposite parts; the zeros of a refused vector are their own. */
static bool are_opposite(const lindenbrood_vector_answer *v, const lindenbrood_vector_answer *w)
{
    return v->status == w->status && v->x == -w->x && v->y == -w->y && v->z == -w->z;
}

/* A vector and its opposite between two frames: opposite answers, or the same
 * refusal.  The answer to the vector. */
static lindenbrood_vector_answer turn_both(lindenbrood_date date, int64_t table, int64_t from,
                                           int64_t to, const int64_t g[3])
{
    lindenbrood_vector_answer v =
        lindenbrood_turn_by_table(date, table, from, to, g[0], g[1], g[2]);
    lindenbrood_vector_answer w =
        lindenbrood_turn_by_table(date, table, from, to, -g[0], -g[1], -g[2]);

    CHECK(are_opposite(&v, &w), "minute %" PRId64 ", table %" PRId64 ", %" PRId64 " to %" PRId64
          " of %" PRId64 " %" PRId64 " %" PRId64, date.minutes, table, from, to, g[0], g[1], g[2]);
    return v;
}

/* The same at a place by RTN, there or back. */
static lindenbrood_vector_answer rtn_both(bool back, const int64_t r[3], const int64_t g[3])
{
    lindenbrood_vector_answer (*turned)(int64_t, int64_t, int64_t, int64_t, int64_t, int64_t) =
        back ? lindenbrood_from_rtn : lindenbrood_to_rtn;
    lindenbrood_vector_answer v = turned(r[0], r[1], r[2], g[0], g[1], g[2]);
    lindenbrood_vector_answer w = turned(r[0], r[1], r[2], -g[0], -g[1], -g[2]);

    CHECK(are_opposite(&v, &w), "%s RTN at %" PRId64 " %" PRId64 " %" PRId64 " of %" PRId64
          " %" PRId64 " %" PRId64, back ? "from" : "to", r[0], r[1], r[2], g[0], g[1], g[2]);
    return v;
}

/* Every hard integer in each part but the least, which has no opposite: between
 * all pairs of frames by a table on a date, and by RTN.  The dates are both ends of
 * both intervals, then one that is refused, and one with a table that is. */
static void hard_opposites(void)
{
    static const int64_t dates[][2] = {{1, -105189840}, {1, 26298000}, {2, -2629254960},
                                       {2, 525949200}, {2, 525949201}, {3, 0}};
    static const int64_t place[] = {10000000, 20000000, 3000000};

    for (size_t i = 0; i < hard_integer_count; i++)
        for (int at = 0; at < 3 && hard_integers[i] != INT64_MIN; at++) {
            int64_t g[] = {123456789, -234567890, 345678901}, r[] = {1, -200000, 3};

            g[at] = hard_integers[i];
            for (size_t d = 0; d < sizeof dates / sizeof *dates; d++)
                for (int64_t pair = 0; pair < 49; pair++)
                    turn_both(lindenbrood_minutes(dates[d][1]), dates[d][0], pair / 7, pair % 7, g);
            rtn_both(false, place, g);
            rtn_both(true, place, g);
            r[at] = hard_integers[i]; /* as the place, with a vector that is taken */
            rtn_both(false, r, place);
            rtn_both(true, r, place);
        }
}

static void any_opposites(void)
{
    for (int i = 0; i < 5000; i++) {
        lindenbrood_date date = lindenbrood_minutes(
            i % 2 ? chance_between(-2629254960, 525949200) : chance_between(-105189840, 26298000));
        int64_t from = chance_between(1, 5), to = chance_between(1, 5), g[3], r[3];

        for (int at = 0; at < 3; at++) {
            g[at] = chance_between(-500000000, 500000000);
            r[at] = chance_between(-500000000, 500000000);
        }
        CHECK(turn_both(date, i % 2 + 1, from, to, g).status == 0, "minute %" PRId64, date.minutes);
        rtn_both(i % 4 < 2, r, g);
    }
}

/* Vectors with a sum of products at exactly half a unit, which goes away from zero.
 * From reference/exact.py: minute, table, two frames, the vector, and it turned. */
static const int64_t half_turns[][10] = {
    {0, 1, 1, 2, 0, 73763369, 170136889, 0, 1, 185438859},                    /* y is 1/2 */
    {0, 1, 2, 1, 0, -73763369, 170136889, 0, -1, 185438859},                  /* y is -1/2 */
    {0, 1, 1, 3, 171, -202, 86, -154, -203, 113},                             /* z is 112 1/2 */
    {0, 1, 1, 3, 161, -583, 369, -525, -251, 404},                            /* y is -250 1/2 */
    {0, 1, 1, 3, 500000000, 500000000, 500000000, 607628769, -295653768,
     541641462}, /* z is 541641461 1/2 */
    {0, 1, 3, 1, -155, 480, 34, -496, -34, 94},                               /* x is -495 1/2 */
    {26298000, 1, 1, 4, 10146, -19751, 0, -21219, -6544, 0},                  /* y is -6543 1/2 */
    {-2629254960, 2, 4, 1, -5512, 3032, 0, 2942, -5561, 0},                   /* x is 2941 1/2 */
    {26298000, 1, 1, 5, -46, -45, -454, -60, 1, -455},                        /* y is 1/2 */
    {0, 2, 5, 1, 219, -192, -265, 117, 258, -274},                            /* z is -273 1/2 */
    /* By way of HAE: twice the turn to HAE ends at a half, twice the turn from it. */
    {0, 1, 2, 3, -2, -170136889, -73763369, -179740973, -45250286, 5756562},  /* z is -1/2 */
    {0, 1, 5, 2, 13055552, -16, 18569960, 3, 3651170, 22404443},              /* x is 2 1/2 */
    {0, 2, 2, 3, -20, 231457082, 109071745, 247885757, 63415920, 1},          /* z is 1/2 */
    {0, 2, 3, 2, -71496933, -39470666, -166486867, -7, -1, -185438859},       /* y is -1/2 */
};

/* To RTN (0) or from it (1), the place, the vector, and it turned. */
static const int64_t half_rtn[][10] = {
    {0, -1771711, 9672140, -3, 195, 501, 439, 458, -230, 469},             /* N is 468 1/2 */
    {0, -1771711, 9672140, -3, 392, 49, -450, -22, -444, -402},            /* T is -443 1/2 */
    {1, -1771711, 9672140, -3, -557, -56, 340, 194, -531, 331},            /* x is 193 1/2 */
    {1, 10000000, -20000000, 30000000, -330, -182, 370, -332, 410, -28},   /* x is -331 1/2 */
};

static bool is_vector(const lindenbrood_vector_answer *v, const int64_t wanted[3])
{
    return v->status == 0 && v->x == wanted[0] && v->y == wanted[1] && v->z == wanted[2];
}

static void halves(void)
{
    for (size_t i = 0; i < sizeof half_turns / sizeof *half_turns; i++) {
        const int64_t *h = half_turns[i];
        lindenbrood_vector_answer v =
            turn_both(lindenbrood_minutes(h[0]), h[1], h[2], h[3], h + 4);

        CHECK(is_vector(&v, h + 7), "%" PRId64 " to %" PRId64 ": %" PRId64 " %" PRId64
              " %" PRId64, h[2], h[3], v.x, v.y, v.z);
    }
    for (size_t i = 0; i < sizeof half_rtn / sizeof *half_rtn; i++) {
        const int64_t *h = half_rtn[i];
        lindenbrood_vector_answer v = rtn_both(h[0] == 1, h + 1, h + 4);

        CHECK(is_vector(&v, h + 7), "%s RTN: %" PRId64 " %" PRId64 " %" PRId64,
              h[0] == 1 ? "from" : "to", v.x, v.y, v.z);
    }
}

void test_vectors(void)
{
    hard_turns();
    corners();
    dates_come_first();
    there_and_back();
    hard_rtn();
    no_direction();
    hard_opposites();
    any_opposites();
    halves();
}
