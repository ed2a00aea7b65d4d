/* A projector's host.
 *
 * It asks for one row at a time into bytes that it lends, reads the row back,
 * and draws only what that row says.  The same bytes serve all evening, so the
 * rule that keeps the dome honest stands in one place, show(): whatever is not
 * answered with status 0 makes the dome dark, and bytes that were not written
 * are never looked at.
 *
 *     projector                      an evening in which everything goes wrong once
 *     projector BODY FRAME DATE...   a body in a frame on Julian dates
 */
#include <inttypes.h>
#include <math.h>
#include <stdio.h>
#include <stdlib.h>

#include "lindenbrood.h"

/* What can go wrong on the host's own side. */
typedef enum { NO_MISHAP, SHORT_BUFFER, DAMAGED_ROW } mishap;

typedef struct {
    double date; /* Julian date */
    int64_t body, frame;
    mishap mishap;
} request;

static const char *const body_names[] = {
    "", "Mercury", "Venus", "Earth", "Mars", "Jupiter", "Saturn", "Uranus", "Neptune",
    "Pluto"};
static const char *const frame_names[] = {"", "HAE", "GEI", "HCI", "HEE", "HEEQ"};

/* What the operator is told, and why the dome is dark. */
static const char *reason(int64_t status)
{
    switch (status) {
    case LINDENBROOD_NOT_FINITE:
        return "the date is no number: look at the clock";
    case LINDENBROOD_OUTSIDE_INTERVAL:
        return "the date is outside 1800 to 2050";
    case LINDENBROOD_NO_SUCH_BODY:
        return "no such body";
    case LINDENBROOD_NO_SUCH_FRAME:
        return "no such frame";
    case LINDENBROOD_SHORT_BUFFER:
        return "too few bytes lent: they hold an old row, which is not read";
    case LINDENBROOD_NO_ROW:
        return "the bytes are no row any more";
    default:
        return "an unknown status";
    }
}

static void dark(int64_t status)
{
    printf("dark, status %" PRId64 ": %s\n", status, reason(status));
}

/* The reader has taken the row, so body and frame are known ones. */
static void draw(const lindenbrood_row_answer *row)
{
    printf("%s at %.7f %.7f %.7f au, %s\n", body_names[row->body], (double)row->x / 1e7,
           (double)row->y / 1e7, (double)row->z / 1e7, frame_names[row->frame]);
}

static void show(const request *asked, uint8_t *row, size_t len)
{
    if (asked->mishap == SHORT_BUFFER)
        len = LINDENBROOD_ROW_BYTES - 1;
    printf("JD %.6f body %" PRId64 " frame %" PRId64 ": ", asked->date, asked->body,
           asked->frame);

    int64_t status = lindenbrood_row(lindenbrood_julian(asked->date), asked->body,
                                     asked->frame, row, len);
    if (status == LINDENBROOD_SHORT_BUFFER) {
        dark(status); /* the only status after which the bytes are not new */
        return;
    }
    if (asked->mishap == DAMAGED_ROW)
        row[2] ^= 0x40;

    lindenbrood_row_answer read = lindenbrood_read_row(row, len);
    if (read.status != LINDENBROOD_ANSWERED)
        dark(read.status);
    else if (read.row_status != LINDENBROOD_ANSWERED)
        dark(read.row_status);
    else
        draw(&read);
}

static const request evening[] = {
    {2451545.0, LINDENBROOD_MARS, LINDENBROOD_HAE, NO_MISHAP},
    {NAN, LINDENBROOD_MARS, LINDENBROOD_HAE, NO_MISHAP},
    {2469808.0, LINDENBROOD_MARS, LINDENBROOD_HAE, NO_MISHAP},
    {2451545.0, LINDENBROOD_SATURN, LINDENBROOD_HEEQ, NO_MISHAP},
    {2451545.0, 10, LINDENBROOD_HEEQ, NO_MISHAP},
    {2451545.0, LINDENBROOD_SATURN, 6, NO_MISHAP},
    {2460000.5, LINDENBROOD_VENUS, LINDENBROOD_HEE, NO_MISHAP},
    {2460001.5, LINDENBROOD_VENUS, LINDENBROOD_HEE, SHORT_BUFFER},
    {2460001.5, LINDENBROOD_VENUS, LINDENBROOD_HEE, DAMAGED_ROW},
    {2460001.5, LINDENBROOD_VENUS, LINDENBROOD_HEE, NO_MISHAP},
};

/* What is no number becomes a date or a number that the library refuses. */
static double date_of(const char *word)
{
    char *end;
    double date = strtod(word, &end);

    return *word != '\0' && *end == '\0' ? date : NAN;
}

static int64_t number_of(const char *word)
{
    char *end;
    int64_t number = strtoll(word, &end, 10);

    return *word != '\0' && *end == '\0' ? number : 0;
}

int main(int argc, char **argv)
{
    uint8_t row[LINDENBROOD_ROW_BYTES] = {0}; /* lent all evening */

    if (argc == 1)
        for (size_t i = 0; i < sizeof evening / sizeof *evening; i++)
            show(&evening[i], row, sizeof row);
    else if (argc < 4) {
        fprintf(stderr, "usage: projector [BODY FRAME DATE...]\n");
        return 2;
    }
    for (int i = 3; i < argc; i++) {
        request asked = {date_of(argv[i]), number_of(argv[1]), number_of(argv[2]), NO_MISHAP};

        show(&asked, row, sizeof row);
    }
    return 0;
}
