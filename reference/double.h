/* The plain double-precision program of 002's own steps, as a small library.
 *
 * It rounds nothing to counts and reads no table of sines: it is the other
 * opinion beside exact.py, and what a user would write from 002 and 000.
 * Bodies are numbered 1 to 9 as in Table 1; no argument is tested.  A function
 * that names no table is Table 1's; table 2 is 002's Tables 2a and 2b.
 */
#ifndef LINDENBROOD_REFERENCE_DOUBLE_H
#define LINDENBROOD_REFERENCE_DOUBLE_H

/* Step 1.  Given: minutes from JD 2451545.0, body.
 * Returned: a (au), e, I, L, longitude of perihelion, node (degrees). */
void double_elements(double minutes, int body, double out[6]);

/* Kepler's equation by (8-36) and (8-37), tolerance 10^-6 degrees.
 * Given: e, M within one turn (degrees).  Returned: E (degrees). */
double double_kepler(double e, double mean_anomaly);

/* Steps 1 to 5.  Returned: the place in au, HAE of J2000. */
void double_place(double minutes, int body, double out[3]);

/* Returned: the place in au, HEEQ, by 000's E(node, tilt, theta). */
void double_heeq(double minutes, int body, double out[3]);

/* The same by table 1 or 2.  A place by table 2 has the last three terms of
 * (8-30) in M for Jupiter to Pluto, and HEEQ's Earth is of the same table. */
void double_elements_by_table(double minutes, int table, int body, double out[6]);
void double_place_by_table(double minutes, int table, int body, double out[3]);
void double_heeq_by_table(double minutes, int table, int body, double out[3]);

#endif
