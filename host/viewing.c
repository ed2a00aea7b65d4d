/* Viewing nights: the next opposition of each planet, and the next inferior
 * conjunction of Mercury and Venus, a day at a time.
 *
 * The date printed is the first noon at the event or after it: the event came
 * within the day before.  viewing.stdout has the exact program's lines.
 */
#include <inttypes.h>
#include <stdio.h>
#include <time.h>

#include "lindenbrood.h"

#define START 2461361.0 /* noon on 16 November 2026, a Julian date */
#define DAY 1440        /* minutes */

static const char *const names[] = {"",        "Mercury", "Venus",  "Earth",   "Mars",
                                    "Jupiter", "Saturn",  "Uranus", "Neptune", "Pluto"};

/* The event's noon, with the day that the calendar calls it. */
static void show_found(const char *name, const char *event, lindenbrood_viewing_answer found)
{
    double julian = 2451545.0 + (double)found.minutes / DAY;
    time_t seconds = (time_t)((julian - 2440587.5) * 86400.0); /* from 1 January 1970 */
    char day[] = "YYYY-MM-DD";

    strftime(day, sizeof day, "%Y-%m-%d", gmtime(&seconds));
    printf("%s: %s by JD %.1f (%s), %" PRId64 " dates looked at\n", name, event, julian, day,
           found.looked);
}

static void show(int64_t body)
{
    const char *name = names[body];
    const char *event = body < LINDENBROOD_EARTH ? "inferior conjunction" : "opposition";
    lindenbrood_viewing_answer a =
        lindenbrood_viewing(lindenbrood_julian(START), DAY, LINDENBROOD_MOST_DATES, body);

    if (a.status == LINDENBROOD_ANSWERED)
        show_found(name, event, a);
    else if (a.status == LINDENBROOD_NO_SUCH_DATE)
        printf("%s: no %s within %" PRId64 " dates\n", name, event, a.looked);
    else
        printf("%s: status %" PRId64 ", %" PRId64 " dates looked at\n", name, a.status, a.looked);
}

int main(void)
{
    printf("viewing nights by table 1, a day at a time from noon on 16 November 2026, JD %.1f\n",
           START);
    for (int64_t body = LINDENBROOD_MERCURY; body <= LINDENBROOD_PLUTO; body++)
        if (body != LINDENBROOD_EARTH)
            show(body);
    show(LINDENBROOD_EARTH); /* refused: the Earth is where the others are seen from */
    return 0;
}
