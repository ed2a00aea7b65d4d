/* The form of a date, in every call on a date: form 0 takes the Julian date,
 * any other form the minutes, and the other member may hold anything. */
#include <string.h>

#include "test.h"

enum { ROW = LINDENBROOD_ROW_BYTES, ROWS = 3 * ROW };

/* All that the calls answer and write on one date. */
typedef struct {
    lindenbrood_elements_answer elements;
    lindenbrood_angle_answer mean_anomaly;
    lindenbrood_place_answer place;
    lindenbrood_vector_answer counts, turned;
    int64_t row_status;
    lindenbrood_sheet_answer sheet;
    lindenbrood_viewing_answer viewing;
    uint8_t row[ROW], rows[ROWS];
} answers;

static answers on(lindenbrood_date date)
{
    answers a;

    a.elements = lindenbrood_elements(date, 1);
    a.mean_anomaly = lindenbrood_mean_anomaly(date, 1);
    a.place = lindenbrood_place(date, 1, 5);
    a.counts = lindenbrood_counts(date, 1, 5);
    a.turned = lindenbrood_turn(date, 1, 5, 100000000, -200000000, 300000000);
    a.row_status = lindenbrood_row(date, 1, 5, a.row, ROW);
    a.sheet = lindenbrood_sheet(date, 1440, 3, 1, 5, a.rows, ROWS);
    a.viewing = lindenbrood_viewing(date, 1440, 1, 1);
    return a;
}

/* Bit by bit: no part has padding in it. */
#define CHECK_SAME(part)                                                   \
    CHECK(memcmp(&got.part, &wanted->part, sizeof got.part) == 0,          \
          #part " on form %" PRId64 ", JD %a, minute %" PRId64, date.form, \
          date.julian, date.minutes)

static void same(lindenbrood_date date, const answers *wanted)
{
    answers got = on(date);

    CHECK_SAME(elements);
    CHECK_SAME(mean_anomaly);
    CHECK_SAME(place);
    CHECK_SAME(counts);
    CHECK_SAME(turned);
    CHECK_SAME(row_status);
    CHECK_SAME(row);
    CHECK_SAME(sheet);
    CHECK_SAME(viewing);
    CHECK_SAME(rows);
}

/* Every call gives the date's own status; the rest is tested where the calls are. */
static void have_status(const answers *a, int64_t status)
{
    CHECK(a->elements.status == status, "wanted %" PRId64, status);
    CHECK(a->mean_anomaly.status == status, "wanted %" PRId64, status);
    CHECK(a->place.status == status, "wanted %" PRId64, status);
    CHECK(a->counts.status == status, "wanted %" PRId64, status);
    CHECK(a->turned.status == status, "wanted %" PRId64, status);
    CHECK(a->row_status == status && a->row[3] == status, "wanted %" PRId64, status);
    CHECK(a->sheet.status == 0 && a->rows[3] == status, "wanted %" PRId64, status);
    /* One date, with none before it, is no viewing night. */
    CHECK(a->viewing.status == (status == 0 ? 12 : status), "wanted %" PRId64, status);
}

/* Forms that are not 0, some of them 0 to whoever takes fewer bits. */
static const int64_t minutes_forms[] = {
    INT64_MIN, INT64_MIN + 1, -4294967296, -1, 1, 2, 256, 65536, 4294967296, INT64_MAX};
static const size_t minutes_form_count = sizeof minutes_forms / sizeof *minutes_forms;

/* With any of these forms the minutes count, whatever Julian date stands beside. */
static void minutes_by_any_form(void)
{
    static const int64_t minutes[] = {
        0, -1, LINDENBROOD_FIRST_MINUTE, LINDENBROOD_FIRST_MINUTE - 1,
        LINDENBROOD_LAST_MINUTE, LINDENBROOD_LAST_MINUTE + 1, INT64_MIN, INT64_MAX};

    for (size_t m = 0; m < sizeof minutes / sizeof *minutes; m++) {
        answers wanted = on(lindenbrood_minutes(minutes[m]));

        have_status(&wanted, minutes_status(minutes[m]));
        for (size_t f = 0; f < minutes_form_count; f++)
            for (size_t i = 0; i < hard_date_count; i++) {
                lindenbrood_date date = {minutes_forms[f], hard_dates[i].julian, minutes[m]};

                same(date, &wanted);
            }
    }
}

/* With form 0 the Julian date counts, whatever minutes stand beside. */
static void julian_dates_by_form_0(void)
{
    for (size_t i = 0; i < hard_date_count; i++) {
        answers wanted = on(lindenbrood_julian(hard_dates[i].julian));

        have_status(&wanted, hard_dates[i].status);
        for (size_t m = 0; m < hard_integer_count; m++) {
            lindenbrood_date date = {0, hard_dates[i].julian, hard_integers[m]};

            same(date, &wanted);
        }
    }
}

/* Forms by chance, and any bits of a double: half of them are no number. */
static void minutes_beside_any_bits(void)
{
    for (int i = 0; i < 2000; i++) {
        int64_t minute = chance_between(LINDENBROOD_FIRST_MINUTE, LINDENBROOD_LAST_MINUTE);
        uint64_t bits = i % 2 ? chance() : chance() | UINT64_C(0x7ff0000000000000);
        lindenbrood_date date = {(int64_t)(chance() | 1), 0, minute}; /* never form 0 */
        answers wanted = on(lindenbrood_minutes(minute));

        memcpy(&date.julian, &bits, sizeof bits);
        same(date, &wanted);
    }
}

/* What the header's two functions make. */
static void dates_made(void)
{
    for (size_t i = 0; i < hard_date_count; i++) {
        lindenbrood_date date = lindenbrood_julian(hard_dates[i].julian);

        CHECK(date.form == 0
                  && memcmp(&date.julian, &hard_dates[i].julian, sizeof date.julian) == 0,
              "JD %a", hard_dates[i].julian);
    }
    for (size_t i = 0; i < hard_integer_count; i++) {
        lindenbrood_date date = lindenbrood_minutes(hard_integers[i]);

        CHECK(date.form != 0 && date.minutes == hard_integers[i], "minute %" PRId64,
              hard_integers[i]);
    }
}

void test_forms(void)
{
    dates_made();
    minutes_by_any_form();
    julian_dates_by_form_0();
    minutes_beside_any_bits();
}
