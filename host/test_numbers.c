/* Sines and the solver: hard integers, and what the header says holds. */
#include "test.h"

#define TURN INT64_C(360000000)
#define HALF_TURN INT64_C(180000000)
#define QUARTER_TURN INT64_C(90000000)
#define UNIT INT64_C(1000000000)

static int64_t one_turn(int64_t angle)
{
    int64_t rest = angle % TURN; /* toward zero, so within a turn either way */

    if (rest >= HALF_TURN)
        return rest - TURN;
    return rest < -HALF_TURN ? rest + TURN : rest;
}

static void sine_of(int64_t angle)
{
    int64_t t = one_turn(angle), s = lindenbrood_sine(angle);

    CHECK(-UNIT <= s && s <= UNIT, "sine of %" PRId64, angle);
    CHECK(s == lindenbrood_sine(t), "turns in %" PRId64, angle);
    CHECK(lindenbrood_sine(HALF_TURN - t) == s, "mirror of %" PRId64, angle);
    CHECK(lindenbrood_sine(-t) == -s, "sign of %" PRId64, angle);
    CHECK(lindenbrood_cosine(angle) == lindenbrood_sine(t + QUARTER_TURN),
          "cosine of %" PRId64, angle);
}

static void all_sines(void)
{
    for (size_t i = 0; i < hard_integer_count; i++)
        sine_of(hard_integers[i]);
    for (int i = 0; i < 2000; i++)
        sine_of((int64_t)chance());
    for (int64_t t = 0; t < QUARTER_TURN; t += 9973)
        CHECK(lindenbrood_sine(t) <= lindenbrood_sine(t + 9973)
                  || t + 9973 > QUARTER_TURN, "the sine rises at %" PRId64, t);
}

/* |10^9 M - F(E)|, for M in one turn. */
static int64_t kepler_error(int64_t e, int64_t mean, int64_t anomaly)
{
    int64_t star = e * 57295780 / 100000000;
    int64_t error = UNIT * mean - (UNIT * anomaly - star * lindenbrood_sine(anomaly));

    return error < 0 ? -error : error;
}

/* F rises, so an E that no neighbour beats is the best of all. */
static void solve(int64_t e, int64_t mean)
{
    lindenbrood_angle_answer a = lindenbrood_eccentric_anomaly(e, mean);

    if (e < 0 || e > LINDENBROOD_E_LIMIT) {
        CHECK(a.status == 7 && a.angle == 0, "e %" PRId64 " M %" PRId64, e, mean);
        return;
    }
    int64_t t = one_turn(mean), error = kepler_error(e, t, a.angle);

    CHECK(a.status == 0, "e %" PRId64 " M %" PRId64, e, mean);
    CHECK(-HALF_TURN <= a.angle && a.angle <= HALF_TURN,
          "e %" PRId64 " M %" PRId64 " E %" PRId64, e, mean, a.angle);
    CHECK(error < UNIT, "e %" PRId64 " M %" PRId64 " error %" PRId64, e, mean, error);
    CHECK(a.angle == -HALF_TURN || kepler_error(e, t, a.angle - 1) > error,
          "the smaller neighbour, e %" PRId64 " M %" PRId64, e, mean);
    CHECK(a.angle == HALF_TURN || kepler_error(e, t, a.angle + 1) >= error,
          "the greater neighbour, e %" PRId64 " M %" PRId64, e, mean);
}

static void all_solves(void)
{
    for (size_t i = 0; i < hard_integer_count; i++)
        for (size_t k = 0; k < hard_integer_count; k++)
            solve(hard_integers[i], hard_integers[k]);
    for (int i = 0; i < 20000; i++)
        solve(chance_between(0, LINDENBROOD_E_LIMIT), (int64_t)chance());
    for (int64_t m = -3000; m <= 3000; m++)
        solve(LINDENBROOD_E_LIMIT, m); /* where the equation is steepest */
}

void test_numbers(void)
{
    all_sines();
    all_solves();
}
