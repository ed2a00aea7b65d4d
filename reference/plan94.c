/* A second outside opinion: ERFA's eraPlan94 (Simon et al. 1994) as a place on
 * the J2000 ecliptic.  Its elements differ from 002's, so its places differ by
 * up to some minutes of arc; slips.py shows what wrong formulas would do.
 *
 *     cc -O2 -shared -fPIC -o libplan94.so plan94.c -lerfa -lm
 */

#include <erfa.h>
#include <math.h>

#define ARC_SECOND (0.017453292519943295 / 3600.0)
#define OBLIQUITY (84381.448 * ARC_SECOND) /* IAU 1976, 23 26 21.448 */

int plan94_place(double minutes, int body, double out[3]);

/* Given: minutes from JD 2451545.0, body 1 to 8.
 * Returned: the heliocentric place in au on the ecliptic and equinox of J2000,
 * and eraPlan94's own status, 0 if it is content. */
int plan94_place(double minutes, int body, double out[3])
{
    double pv[2][3];
    int status = eraPlan94(2451545.0, minutes / 1440.0, body, pv);
    double s = sin(OBLIQUITY), c = cos(OBLIQUITY);

    out[0] = pv[0][0];
    out[1] = c * pv[0][1] + s * pv[0][2];
    out[2] = -s * pv[0][1] + c * pv[0][2];
    return status;
}
