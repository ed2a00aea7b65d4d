/* Document 01's checked examples, through C. */
#include "test.h"

static void elements_and_means(void)
{
    static const int64_t e[] = {1671123, 1671123, 1671122}; /* minutes -1, 0, 1 */
    lindenbrood_date epoch = lindenbrood_minutes(0);

    for (int64_t m = -1; m <= 1; m++)
        CHECK(lindenbrood_elements(lindenbrood_minutes(m), 3).e == e[m + 1],
              "minute %" PRId64, m);
    /* -1531 over 100 with floor is -16. */
    CHECK(lindenbrood_elements(epoch, 3).inclination == -1531, "I of body 3");
    CHECK(lindenbrood_mean_anomaly(epoch, 4).angle == 19390197, "M of Mars");
    CHECK(lindenbrood_mean_anomaly(epoch, 3).angle == -2473111, "M of body 3");
    CHECK(lindenbrood_mean_anomaly(epoch, 5).angle == 19667960, "M of Jupiter");
}

static int64_t status_on(lindenbrood_date date)
{
    return lindenbrood_counts(date, 4, 1).status;
}

static void ends_of_the_interval(void)
{
    CHECK(status_on(lindenbrood_julian(2469808.0)) == 2, "JD 2469808.0");
    CHECK(status_on(lindenbrood_minutes(26298000)) == 0, "the last minute");
    CHECK(status_on(lindenbrood_minutes(26298001)) == 2, "one beyond");
    CHECK(status_on(lindenbrood_minutes(-105189840)) == 0, "the first minute");
    CHECK(status_on(lindenbrood_minutes(-105189841)) == 2, "one before");
}

static void minutes_of_julian_dates(void)
{
    uint8_t row[LINDENBROOD_ROW_BYTES];

    lindenbrood_row(lindenbrood_julian(2451545.015625), 4, 1, row, sizeof row);
    CHECK(lindenbrood_read_row(row, sizeof row).minutes == 23, "JD 2451545.015625");
    lindenbrood_row(lindenbrood_julian(2451544.984375), 4, 1, row, sizeof row);
    CHECK(lindenbrood_read_row(row, sizeof row).minutes == -22, "JD 2451544.984375");
}

static void sines(void)
{
    CHECK(lindenbrood_sine(50000) == 872664, "sine of 50,000");
    CHECK(lindenbrood_sine(-50000) == -872664, "sine of -50,000");
    CHECK(lindenbrood_sine(30000000) == 500000000, "sine of 30 degrees");
    CHECK(lindenbrood_sine(45000000) == 707106781, "sine of 45 degrees");
}

static void solver(void)
{
    CHECK(lindenbrood_eccentric_anomaly(90000000, 0).angle == 0, "M 0");
    CHECK(lindenbrood_eccentric_anomaly(90000000, 1).angle == 10, "M 1");
    CHECK(lindenbrood_eccentric_anomaly(90000000, -180000000).angle == -180000000,
          "M -180 degrees");
    CHECK(lindenbrood_eccentric_anomaly(90000000, 0).status == 0, "e 0.9");
    CHECK(lindenbrood_eccentric_anomaly(90000001, 0).status == 7, "e beyond 0.9");
    for (int64_t m = -180000000; m < 180000000; m += 12345678)
        CHECK(lindenbrood_eccentric_anomaly(0, m).angle == m, "e 0, M %" PRId64, m);
}

static void vectors(void)
{
    lindenbrood_date epoch = lindenbrood_minutes(0);
    lindenbrood_vector_answer v = lindenbrood_to_rtn(10000000, 0, 0, 10000000, 0, 0);

    CHECK(v.status == 0 && v.x == 10000000 && v.y == 0 && v.z == 0, "RTN of r");
    v = lindenbrood_to_rtn(0, 0, 0, 10000000, 0, 0);
    CHECK(v.status == 6 && v.x == 0 && v.y == 0 && v.z == 0, "r = 0");
    v = lindenbrood_turn(epoch, 1, 1, 500000000, 0, 0);
    CHECK(v.status == 0 && v.x == 500000000, "a part at the limit");
    v = lindenbrood_turn(epoch, 1, 1, 500000001, 0, 0);
    CHECK(v.status == 5 && v.x == 0, "a part beyond the limit");
}

/* The refused lines of the listing example, as calls. */
static void refused_lines(void)
{
    lindenbrood_date epoch = lindenbrood_minutes(0), beyond = lindenbrood_minutes(26298001);

    CHECK(lindenbrood_counts(beyond, 4, 1).status == 2, "26298001 4 1");
    CHECK(lindenbrood_counts(epoch, 10, 1).status == 3, "0 10 1");
    CHECK(lindenbrood_counts(epoch, 4, 6).status == 4, "0 4 6");
}

void test_examples(void)
{
    elements_and_means();
    ends_of_the_interval();
    minutes_of_julian_dates();
    sines();
    solver();
    vectors();
    refused_lines();
}
