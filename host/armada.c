/* The sky of the Armada: the planets on 8 August 1588, the day of the battle off
 * Gravelines, which England's calendar still called 29 July.
 *
 * The places are Table 2's; Table 1 begins in 1800 and refuses the date.  What a
 * pupil plots is the direction in which a planet is seen from the Earth: its
 * longitude along the ecliptic of J2000, worked out here in doubles, without the
 * time that light needs.  armada.stdout has the exact program's numbers.
 */
#include <inttypes.h>
#include <math.h>
#include <stdio.h>

#include "lindenbrood.h"

#define NOON 2301285.0 /* of that day, a Julian date */
#define DEGREES_IN_A_RADIAN 57.295779513082321

static double longitude(double x, double y)
{
    double degrees = atan2(y, x) * DEGREES_IN_A_RADIAN;

    return degrees < 0.0 ? degrees + 360.0 : degrees;
}

static lindenbrood_place_answer place(int64_t table, int64_t body)
{
    return lindenbrood_place_by_table(lindenbrood_julian(NOON), table, body, LINDENBROOD_HAE);
}

static void show(const char *name, lindenbrood_place_answer p, const char *seen, double degrees)
{
    if (p.status == LINDENBROOD_ANSWERED)
        printf("%s at %.7f %.7f %.7f au, HAE; %s at %.2f degrees\n", name, p.x, p.y, p.z, seen,
               degrees);
    else
        printf("%s: status %" PRId64 "\n", name, p.status);
}

int main(void)
{
    static const char *const names[] = {"Mercury", "Venus", "Mars", "Jupiter", "Saturn"};
    static const int64_t bodies[] = {LINDENBROOD_MERCURY, LINDENBROOD_VENUS, LINDENBROOD_MARS,
                                     LINDENBROOD_JUPITER, LINDENBROOD_SATURN};
    lindenbrood_place_answer earth = place(LINDENBROOD_TABLE_2, LINDENBROOD_EARTH);

    printf("8 August 1588, noon, JD %.1f, by table 2\n", NOON);
    for (size_t i = 0; i < sizeof bodies / sizeof *bodies; i++) {
        lindenbrood_place_answer p = place(LINDENBROOD_TABLE_2, bodies[i]);

        show(names[i], p, "seen from the Earth", longitude(p.x - earth.x, p.y - earth.y));
    }
    show("Earth", earth, "the Sun seen from it", longitude(-earth.x, -earth.y));
    printf("the same day by table 1: status %" PRId64 "\n",
           place(LINDENBROOD_TABLE_1, LINDENBROOD_EARTH).status);
    return 0;
}
