/* The library's calls beside what a user would write or take instead, in one run on the same inputs: the plain
 * double-precision program of reference/double.c, and ERFA's eraPlan94 where WITH_PLAN94 is set.
 *
 * Each round times every call once, by the processor's time; the least of the rounds is printed, so that what else the
 * machine does meanwhile favours neither side. */
#define _POSIX_C_SOURCE 199309L /* clock_gettime */
#include <math.h>
#include <stdbool.h>
#include <stdint.h>
#include <stdio.h>
#include <stdlib.h>
#include <time.h>

#include "double.h"
#include "lindenbrood.h"

uint64_t whole_root(uint64_t x); /* of tests/root: no call of the library */

enum {
    CALLS = 8000, /* in a round: one to four milliseconds, so that some rounds run without a break */
    ROUNDS = 150,
    SHEETS = CALLS / LINDENBROOD_MOST_ROWS,
    SEARCHES = CALLS / LINDENBROOD_MOST_DATES,
    ALLOWED = 1000, /* units, for a marker: more than the two sides differ by */
    HOUR = 60,
    DAY = 1440
};
#define RADIANS 0.017453292519943295
#define EPOCH 2451545.0

/* The inputs. eraPlan94 has no Pluto: the lines that show it ask for bodies 1 to 8 on both sides. Long minutes are those
 * of Table 2's interval, and outer bodies, 5 to 8, those for which Table 2 has all three further terms in M. */
static int64_t minutes[CALLS], nine_bodies[CALLS], eight_bodies[CALLS], angles[CALLS];
static int64_t long_minutes[CALLS], outer_bodies[CALLS];
static const int64_t *bodies;
static double julian_dates[CALLS];
static uint64_t squares[CALLS]; /* as step 4 has them: 9.3·10^17 up to 10^18 */

/* Searches by the hour, 167 days, that find nothing, so that every date is looked at. */
static const int64_t search_bodies[SEARCHES] = {LINDENBROOD_MARS, LINDENBROOD_JUPITER};
static int64_t search_minutes[SEARCHES];

static uint8_t rows[LINDENBROOD_MOST_ROWS * LINDENBROOD_ROW_BYTES];
static uint8_t marked[SHEETS][sizeof rows]; /* sheets in which no row is wrong, so that every row is looked at */
static volatile double sink; /* what is computed is used */

static uint64_t chance(void)
{
    static uint64_t state = 88172645463325252u;

    state ^= state << 13;
    state ^= state >> 7;
    state ^= state << 17;
    return state;
}

static int64_t chance_between(int64_t first, int64_t last)
{
    return first + (int64_t)(chance() % (uint64_t)(last - first + 1));
}

static void make_inputs(void)
{
    const int64_t span = (int64_t)LINDENBROOD_MOST_ROWS * DAY; /* of a sheet: all rows are good */

    for (int i = 0; i < CALLS; i++) {
        minutes[i] = chance_between(LINDENBROOD_FIRST_MINUTE, LINDENBROOD_LAST_MINUTE - span);
        julian_dates[i] = EPOCH + (double)minutes[i] / DAY;
        nine_bodies[i] = chance_between(1, 9);
        eight_bodies[i] = chance_between(1, 8);
        angles[i] = chance_between(-180000000, 179999999);
    }
    for (int i = 0; i < CALLS; i++) {
        long_minutes[i] = chance_between(LINDENBROOD_TABLE_2_FIRST_MINUTE, LINDENBROOD_TABLE_2_LAST_MINUTE);
        outer_bodies[i] = chance_between(LINDENBROOD_JUPITER, LINDENBROOD_NEPTUNE);
        squares[i] = (uint64_t)chance_between(930000000000000000, 1000000000000000000);
    }
}

/* The same search over the plain program: the place of the date found, from 1, or 0. */
static int plain_search(int64_t start, int64_t step, int count, int64_t body)
{
    double planet[3], earth[3], before = 0; /* the first date has none before it */

    for (int k = 0; k < count; k++) {
        double_place((double)(start + k * step), (int)body, planet);
        double_place((double)(start + k * step), LINDENBROOD_EARTH, earth);
        double dot = planet[0] * earth[0] + planet[1] * earth[1];
        double cross = planet[0] * earth[1] - planet[1] * earth[0];

        if (dot > 0 && (cross == 0 || cross * before < 0))
            return k + 1;
        before = cross;
    }
    return 0;
}

static lindenbrood_viewing_answer our_search(int i)
{
    return lindenbrood_viewing(lindenbrood_minutes(search_minutes[i]), HOUR, LINDENBROOD_MOST_DATES, search_bodies[i]);
}

/* The first of the minutes above from which the plain program finds none. */
static void make_searches(void)
{
    for (int i = 0, next = 0; i < SEARCHES; i++)
        do
            search_minutes[i] = minutes[next++];
        while (plain_search(search_minutes[i], HOUR, LINDENBROOD_MOST_DATES, search_bodies[i]) != 0);
}

/* The sheets that are timed below, to be marked. */
static void make_marked(void)
{
    for (int i = 0; i < SHEETS; i++)
        lindenbrood_sheet(lindenbrood_minutes(minutes[i]), DAY, LINDENBROOD_MOST_ROWS, nine_bodies[i], LINDENBROOD_HAE,
                          marked[i], sizeof marked[i]);
}

static int64_t eight(const uint8_t *bytes)
{
    uint64_t number = 0;

    for (int i = 0; i < 8; i++)
        number = number << 8 | bytes[i];
    return (int64_t)number;
}

static bool plain_is_wrong(const uint8_t *row, double allowed)
{
    double minute = (double)eight(row + 6), place[3];

    if (row[0] != 0 || row[1] != 36 || row[2] != 1 || row[3] != 0 || row[4] < 1 || row[4] > 9)
        return true;
    if (row[5] == LINDENBROOD_HAE)
        double_place(minute, row[4], place);
    else if (row[5] == LINDENBROOD_HEEQ)
        double_heeq(minute, row[4], place);
    else
        return true; /* the plain program has no other frame */
    for (int i = 0; i < 3; i++)
        if (fabs((double)eight(row + 14 + 8 * i) - place[i] * 1e7) > allowed)
            return true;
    return false;
}

/* The same marking over the plain program: the place of the first wrong row, from 1, or 0. */
static int plain_mark(const uint8_t *sheet, int count, double allowed)
{
    for (int k = 0; k < count; k++)
        if (plain_is_wrong(sheet + k * LINDENBROOD_ROW_BYTES, allowed))
            return k + 1;
    return 0;
}

static lindenbrood_mark_answer our_mark(int i, int64_t allowed)
{
    return lindenbrood_mark(marked[i], sizeof marked[i], LINDENBROOD_MOST_ROWS, allowed);
}

/* A batch makes all calls of a round with one parameter and answers a sum of what came out. */
typedef double (*batch)(int64_t parameter);

static double our_places(int64_t frame)
{
    double sum = 0;

    for (int i = 0; i < CALLS; i++)
        sum += lindenbrood_place(lindenbrood_minutes(minutes[i]), bodies[i], frame).x;
    return sum;
}

static double plain_places(int64_t frame)
{
    double sum = 0, place[3];

    for (int i = 0; i < CALLS; i++) {
        if (frame == LINDENBROOD_HAE)
            double_place((double)minutes[i], (int)bodies[i], place);
        else
            double_heeq((double)minutes[i], (int)bodies[i], place);
        sum += place[0];
    }
    return sum;
}

static double our_long_places(int64_t frame)
{
    double sum = 0;

    for (int i = 0; i < CALLS; i++)
        sum += lindenbrood_place_by_table(lindenbrood_minutes(long_minutes[i]), LINDENBROOD_TABLE_2, bodies[i], frame).x;
    return sum;
}

static double plain_long_places(int64_t frame)
{
    double sum = 0, place[3];

    (void)frame;
    for (int i = 0; i < CALLS; i++) {
        double_place_by_table((double)long_minutes[i], LINDENBROOD_TABLE_2, (int)bodies[i], place);
        sum += place[0];
    }
    return sum;
}

#ifdef WITH_PLAN94
int plan94_place(double minutes, int body, double out[3]);

static double plan94_places(int64_t frame)
{
    double sum = 0, place[3];

    (void)frame;
    for (int i = 0; i < CALLS; i++) {
        plan94_place((double)minutes[i], (int)bodies[i], place);
        sum += place[0];
    }
    return sum;
}
#else
#define plan94_places NULL
#endif

static double our_solves(int64_t e)
{
    int64_t sum = 0;

    for (int i = 0; i < CALLS; i++)
        sum += lindenbrood_eccentric_anomaly(e, angles[i]).angle;
    return (double)sum;
}

static double plain_solves(int64_t e)
{
    double sum = 0;

    for (int i = 0; i < CALLS; i++)
        sum += double_kepler((double)e / 1e8, (double)angles[i] / 1e6);
    return sum;
}

static double our_sines(int64_t unused)
{
    int64_t sum = 0;

    (void)unused;
    for (int i = 0; i < CALLS; i++)
        sum += lindenbrood_sine(angles[i]);
    return (double)sum;
}

static double plain_sines(int64_t unused)
{
    double sum = 0;

    (void)unused;
    for (int i = 0; i < CALLS; i++)
        sum += sin((double)angles[i] / 1e6 * RADIANS);
    return sum;
}

static double our_elements(int64_t unused)
{
    double sum = 0;

    (void)unused;
    for (int i = 0; i < CALLS; i++)
        sum += (double)lindenbrood_elements(lindenbrood_minutes(minutes[i]), bodies[i]).mean_longitude;
    return sum;
}

static double plain_elements(int64_t unused)
{
    double sum = 0, elements[6];

    (void)unused;
    for (int i = 0; i < CALLS; i++) {
        double_elements((double)minutes[i], (int)bodies[i], elements);
        sum += elements[3];
    }
    return sum;
}

static double our_mean_anomalies(int64_t unused)
{
    int64_t sum = 0;

    (void)unused;
    for (int i = 0; i < CALLS; i++)
        sum += lindenbrood_mean_anomaly(lindenbrood_minutes(minutes[i]), bodies[i]).angle;
    return (double)sum;
}

static double our_mean_anomalies_by_table(int64_t table)
{
    int64_t sum = 0;

    for (int i = 0; i < CALLS; i++)
        sum += lindenbrood_mean_anomaly_by_table(lindenbrood_minutes(minutes[i]), table, bodies[i]).angle;
    return (double)sum;
}

/* The root as a C host writes it. It is one too large where the double nearest to x is a square and x is below it. */
static uint64_t plain_root(uint64_t x)
{
    return (uint64_t)sqrt((double)x);
}

typedef uint64_t (*whole_root_of)(uint64_t x);

static inline double roots(whole_root_of root)
{
    uint64_t sum = 0;

    for (int i = 0; i < CALLS; i++)
        sum += root(squares[i]);
    return (double)sum;
}

/* The same, where each number waits for the root before it: its lowest bit is added. */
static inline double roots_in_turn(whole_root_of root)
{
    uint64_t last = 0, sum = 0;

    for (int i = 0; i < CALLS; i++) {
        last = root(squares[i] + (last & 1));
        sum += last;
    }
    return (double)sum;
}

static double our_roots(int64_t waits)
{
    return waits ? roots_in_turn(whole_root) : roots(whole_root);
}

static double plain_roots(int64_t waits)
{
    return waits ? roots_in_turn(plain_root) : roots(plain_root);
}

static double our_rows(int64_t frame)
{
    double sum = 0;

    for (int i = 0; i < CALLS; i++) {
        lindenbrood_row(lindenbrood_julian(julian_dates[i]), bodies[i], frame, rows, LINDENBROOD_ROW_BYTES);
        sum += rows[21];
    }
    return sum;
}

static void put_eight(int64_t number, uint8_t *bytes)
{
    for (int i = 0; i < 8; i++)
        bytes[i] = (uint8_t)((uint64_t)number >> (56 - 8 * i));
}

/* The same bytes, as a plain C host would fill them: no test of anything. */
static void plain_row(double minute, int64_t body, uint8_t *row)
{
    double place[3];

    double_place(minute, (int)body, place);
    row[0] = 0;
    row[1] = 36;
    row[2] = 1;
    row[3] = 0;
    row[4] = (uint8_t)body;
    row[5] = LINDENBROOD_HAE;
    put_eight((int64_t)floor(minute + 0.5), row + 6);
    for (int i = 0; i < 3; i++)
        put_eight(llround(place[i] * 1e7), row + 14 + 8 * i);
}

static double plain_rows(int64_t frame)
{
    double sum = 0;

    (void)frame;
    for (int i = 0; i < CALLS; i++) {
        plain_row((julian_dates[i] - EPOCH) * DAY, bodies[i], rows);
        sum += rows[21];
    }
    return sum;
}

static double our_sheets(int64_t frame)
{
    double good = 0;

    for (int i = 0; i < SHEETS; i++)
        good += (double)lindenbrood_sheet(lindenbrood_minutes(minutes[i]), DAY, LINDENBROOD_MOST_ROWS, bodies[i], frame,
                                          rows, sizeof rows).good;
    return good;
}

/* The rows of the same sheets, each by a call of its own. */
static double our_single_rows(int64_t frame)
{
    double sum = 0;

    for (int i = 0; i < SHEETS; i++) {
        for (int k = 0; k < LINDENBROOD_MOST_ROWS; k++)
            lindenbrood_row(lindenbrood_minutes(minutes[i] + k * DAY), bodies[i], frame,
                            rows + k * LINDENBROOD_ROW_BYTES, LINDENBROOD_ROW_BYTES);
        sum += rows[21];
    }
    return sum;
}

static double plain_sheets(int64_t frame)
{
    double sum = 0;

    (void)frame;
    for (int i = 0; i < SHEETS; i++) {
        for (int k = 0; k < LINDENBROOD_MOST_ROWS; k++)
            plain_row((double)(minutes[i] + k * DAY), bodies[i], rows + k * LINDENBROOD_ROW_BYTES);
        sum += rows[21];
    }
    return sum;
}

static double our_searches(int64_t unused)
{
    double looked = 0;

    (void)unused;
    for (int i = 0; i < SEARCHES; i++)
        looked += (double)our_search(i).looked;
    return looked;
}

static double plain_searches(int64_t unused)
{
    double found = 0;

    (void)unused;
    for (int i = 0; i < SEARCHES; i++)
        found += plain_search(search_minutes[i], HOUR, LINDENBROOD_MOST_DATES, search_bodies[i]);
    return found;
}

static double our_marks(int64_t allowed)
{
    double wrong = 0;

    for (int i = 0; i < SHEETS; i++)
        wrong += (double)our_mark(i, allowed).row;
    return wrong;
}

static double plain_marks(int64_t allowed)
{
    double wrong = 0;

    for (int i = 0; i < SHEETS; i++)
        wrong += plain_mark(marked[i], LINDENBROOD_MOST_ROWS, (double)allowed);
    return wrong;
}

typedef struct {
    const char *what;
    int calls;             /* in a batch, whose time is divided by them */
    int64_t parameter;     /* frame, eccentricity in 10^-8, table, allowance, or whether a number waits for the one before */
    const int64_t *bodies; /* who is asked for */
    batch batches[3];      /* ours, the plain program's, eraPlan94's; NULL where there is none */
} line;

static const line lines[] = {
    {"place in HAE", CALLS, LINDENBROOD_HAE, nine_bodies, {our_places, plain_places, NULL}},
    {"the same, bodies 1 to 8", CALLS, LINDENBROOD_HAE, eight_bodies, {our_places, plain_places, plan94_places}},
    {"place in HEEQ", CALLS, LINDENBROOD_HEEQ, nine_bodies, {our_places, plain_places, NULL}},
    {"place by Table 2, 5 to 8", CALLS, LINDENBROOD_HAE, outer_bodies, {our_long_places, plain_long_places, NULL}},
    {"solve, e 0.0068", CALLS, 680000, nine_bodies, {our_solves, plain_solves, NULL}},
    {"solve, e 0.0167", CALLS, 1670000, nine_bodies, {our_solves, plain_solves, NULL}},
    {"solve, e 0.0934", CALLS, 9340000, nine_bodies, {our_solves, plain_solves, NULL}},
    {"solve, e 0.2056", CALLS, 20560000, nine_bodies, {our_solves, plain_solves, NULL}},
    {"solve, e 0.2488", CALLS, 24880000, nine_bodies, {our_solves, plain_solves, NULL}},
    {"solve, e 0.9", CALLS, 90000000, nine_bodies, {our_solves, plain_solves, NULL}},
    {"elements", CALLS, 0, nine_bodies, {our_elements, plain_elements, NULL}},
    /* Two on the same dates and bodies. The first needs no sine and builds no table of sines; what they differ by is what
     * Table 2 costs, mostly that table and the further terms. */
    {"mean anomaly, 5 to 8", CALLS, 0, outer_bodies, {our_mean_anomalies, NULL, NULL}},
    {"the same by Table 2", CALLS, LINDENBROOD_TABLE_2, outer_bodies, {our_mean_anomalies_by_table, NULL, NULL}},
    {"sine", CALLS, 0, nine_bodies, {our_sines, plain_sines, NULL}},
    {"root near 10^18", CALLS, false, nine_bodies, {our_roots, plain_roots, NULL}},
    {"the same, one waits", CALLS, true, nine_bodies, {our_roots, plain_roots, NULL}},
    {"search of 4,000 dates", SEARCHES, 0, search_bodies, {our_searches, plain_searches, NULL}},
    {"row of 400, marked", CALLS, ALLOWED, nine_bodies, {our_marks, plain_marks, NULL}},
    {"row in HAE, Julian date", CALLS, LINDENBROOD_HAE, nine_bodies, {our_rows, plain_rows, NULL}},
    /* The last two ask for the same rows, by minutes both: what they differ by is what a sheet saves. */
    {"row in HAE, sheet's dates", CALLS, LINDENBROOD_HAE, nine_bodies, {our_single_rows, plain_sheets, NULL}},
    {"row of a 400-row sheet", CALLS, LINDENBROOD_HAE, nine_bodies, {our_sheets, plain_sheets, NULL}},
};
enum { LINES = sizeof lines / sizeof *lines, SINGLE_ROW = LINES - 2, SHEET_ROW = LINES - 1 };

static double now(void)
{
    struct timespec t;

    clock_gettime(CLOCK_PROCESS_CPUTIME_ID, &t);
    return (double)t.tv_sec * 1e9 + (double)t.tv_nsec;
}

/* Nanoseconds for one call of a line, on one side. */
static double time_of_line(int i, int side)
{
    double start;

    bodies = lines[i].bodies;
    start = now();
    sink = lines[i].batches[side](lines[i].parameter);
    return (now() - start) / lines[i].calls;
}

#ifdef FOR_BESIDE
/* A checkout from before the search or the marker has no such call, and no time for it. */
#pragma weak lindenbrood_viewing
#pragma weak lindenbrood_mark

static bool is_lacking(batch ours)
{
    return (ours == our_searches && lindenbrood_viewing == NULL) || (ours == our_marks && lindenbrood_mark == NULL);
}

/* For bench/beside.c, which loads this file twice, each time with another library, and times the two in turn. */
void times_prepare(void)
{
    make_inputs();
    make_searches();
    make_marked();
}

int times_lines(void)
{
    return LINES;
}

const char *times_name(int i)
{
    return lines[i].what;
}

double times_ours(int i)
{
    return is_lacking(lines[i].batches[0]) ? INFINITY : time_of_line(i, 0);
}
#else
/* Both sides answer a search alike: those that are timed, and one by the day, in which a date is found. */
static void searches_agree(void)
{
    for (int i = 0; i < SEARCHES; i++) {
        const int days = LINDENBROOD_MOST_ROWS; /* of a sheet: they end within the interval */
        lindenbrood_viewing_answer timed = our_search(i);
        lindenbrood_viewing_answer daily =
            lindenbrood_viewing(lindenbrood_minutes(search_minutes[i]), DAY, days, search_bodies[i]);
        int place = plain_search(search_minutes[i], DAY, days, search_bodies[i]);

        if (timed.status != LINDENBROOD_NO_SUCH_DATE || timed.looked != LINDENBROOD_MOST_DATES
            || daily.status != LINDENBROOD_ANSWERED || daily.looked != place) {
            fprintf(stderr, "search %d: the two sides do not find the same\n", i);
            exit(1);
        }
    }
}

/* Both sides mark alike: the sheets that are timed, and each with a high byte of y changed in one row. */
static void marks_agree(void)
{
    for (int i = 0; i < SHEETS; i++) {
        int wrong = 1 + 21 * i;
        uint8_t *byte = marked[i] + (wrong - 1) * LINDENBROOD_ROW_BYTES + 26;
        int64_t ours = our_mark(i, ALLOWED).row, plain = plain_mark(marked[i], LINDENBROOD_MOST_ROWS, ALLOWED);

        *byte = (uint8_t)(*byte + 1);
        if (ours != 0 || plain != 0 || our_mark(i, ALLOWED).row != wrong
            || plain_mark(marked[i], LINDENBROOD_MOST_ROWS, ALLOWED) != wrong) {
            fprintf(stderr, "sheet %d: the two sides do not mark alike\n", i);
            exit(1);
        }
        *byte = (uint8_t)(*byte - 1);
    }
}

static void print_line(const char *what, const double least[3])
{
    printf("%-26s %9.1f", what, least[0]);
    for (int side = 1; side < 3; side++)
        if (least[side] < INFINITY)
            printf(" %11.1f %8.2f", least[side], least[0] / least[side]);
        else
            printf(" %11s %8s", "", "");
    printf("\n");
}

int main(void)
{
    static double least[LINES][3];

    make_inputs();
    make_searches();
    make_marked();
    searches_agree();
    marks_agree();
    for (int i = 0; i < LINES; i++)
        for (int side = 0; side < 3; side++)
            least[i][side] = INFINITY;
    for (int round = 0; round < ROUNDS; round++)
        for (int i = 0; i < LINES; i++)
            for (int side = 0; side < 3; side++)
                if (lines[i].batches[side] != NULL)
                    least[i][side] = fmin(least[i][side], time_of_line(i, side));

    printf("%-26s %9s %11s %8s %11s %8s\n", "nanoseconds", "ours", "plain C", "ratio", "eraPlan94", "ratio");
    for (int i = 0; i < LINES; i++)
        print_line(lines[i].what, least[i]);
    printf("%-26s %9.1f  the sine table's build, and whatever else a sheet does once and each single row anew\n",
           "their difference", least[SINGLE_ROW][0] - least[SHEET_ROW][0]);
    return 0;
}
#endif
