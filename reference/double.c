/* 002's steps 1 to 5 in double precision, and 000's HEEQ.  See double.h. */

#include "double.h"

#include <math.h>

#define RADIANS 0.017453292519943295 /* pi / 180 */
#define CENTURY 52596000.0 /* minutes */
#define TOLERANCE 1e-6     /* degrees, 002's own */
#define EARTH 3
#define JUPITER 5          /* the first body with terms in Table 2b */

/* 000 (14) at J2000: the solar equator on the ecliptic. */
#define SOLAR_NODE (75.76 * RADIANS)
#define SOLAR_TILT (7.25 * RADIANS)

/* Table 1 of 002: a, e, I, L, longitude of perihelion, node; then the rates. */
static const double table_1[9][2][6] = {
    {{0.38709927, 0.20563593, 7.00497902, 252.25032350, 77.45779628, 48.33076593},
     {0.00000037, 0.00001906, -0.00594749, 149472.67411175, 0.16047689, -0.12534081}},
    {{0.72333566, 0.00677672, 3.39467605, 181.97909950, 131.60246718, 76.67984255},
     {0.00000390, -0.00004107, -0.00078890, 58517.81538729, 0.00268329, -0.27769418}},
    {{1.00000261, 0.01671123, -0.00001531, 100.46457166, 102.93768193, 0.0},
     {0.00000562, -0.00004392, -0.01294668, 35999.37244981, 0.32327364, 0.0}},
    {{1.52371034, 0.09339410, 1.84969142, -4.55343205, -23.94362959, 49.55953891},
     {0.00001847, 0.00007882, -0.00813131, 19140.30268499, 0.44441088, -0.29257343}},
    {{5.20288700, 0.04838624, 1.30439695, 34.39644051, 14.72847983, 100.47390909},
     {-0.00011607, -0.00013253, -0.00183714, 3034.74612775, 0.21252668, 0.20469106}},
    {{9.53667594, 0.05386179, 2.48599187, 49.95424423, 92.59887831, 113.66242448},
     {-0.00125060, -0.00050991, 0.00193609, 1222.49362201, -0.41897216, -0.28867794}},
    {{19.18916464, 0.04725744, 0.77263783, 313.23810451, 170.95427630, 74.01692503},
     {-0.00196176, -0.00004397, -0.00242939, 428.48202785, 0.40805281, 0.04240589}},
    {{30.06992276, 0.00859048, 1.77004347, -55.12002969, 44.96476227, 131.78422574},
     {0.00026291, 0.00005105, 0.00035372, 218.45945325, -0.32241464, -0.00508664}},
    {{39.48211675, 0.24882730, 17.14001206, 238.92903833, 224.06891629, 110.30393684},
     {-0.00031596, 0.00005170, 0.00004818, 145.20780515, -0.04062942, -0.01183482}},
};

/* Table 2a of 002, in the same way. */
static const double table_2a[9][2][6] = {
    {{0.38709843, 0.20563661, 7.00559432, 252.25166724, 77.45771895, 48.33961819},
     {0.00000000, 0.00002123, -0.00590158, 149472.67486623, 0.15940013, -0.12214182}},
    {{0.72332102, 0.00676399, 3.39777545, 181.97970850, 131.76755713, 76.67261496},
     {-0.00000026, -0.00005107, 0.00043494, 58517.81560260, 0.05679648, -0.27274174}},
    {{1.00000018, 0.01673163, -0.00054346, 100.46691572, 102.93005885, -5.11260389},
     {-0.00000003, -0.00003661, -0.01337178, 35999.37306329, 0.31795260, -0.24123856}},
    {{1.52371243, 0.09336511, 1.85181869, -4.56813164, -23.91744784, 49.71320984},
     {0.00000097, 0.00009149, -0.00724757, 19140.29934243, 0.45223625, -0.26852431}},
    {{5.20248019, 0.04853590, 1.29861416, 34.33479152, 14.27495244, 100.29282654},
     {-0.00002864, 0.00018026, -0.00322699, 3034.90371757, 0.18199196, 0.13024619}},
    {{9.54149883, 0.05550825, 2.49424102, 50.07571329, 92.86136063, 113.63998702},
     {-0.00003065, -0.00032044, 0.00451969, 1222.11494724, 0.54179478, -0.25015002}},
    {{19.18797948, 0.04685740, 0.77298127, 314.20276625, 172.43404441, 73.96250215},
     {-0.00020455, -0.00001550, -0.00180155, 428.49512595, 0.09266985, 0.05739699}},
    {{30.06952752, 0.00895439, 1.77005520, 304.22289287, 46.68158724, 131.78635853},
     {0.00006447, 0.00000818, 0.00022400, 218.46515314, 0.01009938, -0.00606302}},
    {{39.48686035, 0.24885238, 17.14104260, 238.96535011, 224.09702598, 110.30167986},
     {0.00449751, 0.00006016, 0.00000501, 145.18042903, -0.00968827, -0.00809981}},
};

/* Table 2b of 002: b, c, s, f of Jupiter to Pluto, which has b only. */
static const double table_2b[5][4] = {
    {-0.00012452, 0.06064060, -0.35635438, 38.35125000},
    {0.00025899, -0.13434469, 0.87320147, 38.35125000},
    {0.00058331, -0.97731848, 0.17689245, 7.67025000},
    {-0.00041348, 0.68346318, -0.10162547, 7.67025000},
    {-0.01262724, 0.0, 0.0, 0.0},
};

static void elements_of(const double row[2][6], double minutes, double out[6])
{
    double t = minutes / CENTURY;

    for (int i = 0; i < 6; i++)
        out[i] = row[0][i] + row[1][i] * t;
}

void double_elements(double minutes, int body, double out[6])
{
    elements_of(table_1[body - 1], minutes, out);
}

void double_elements_by_table(double minutes, int table, int body, double out[6])
{
    elements_of(table == 2 ? table_2a[body - 1] : table_1[body - 1], minutes, out);
}

/* The last three terms of (8-30), degrees. */
static double extra_terms(double minutes, int body)
{
    const double *row = table_2b[body - JUPITER];
    double t = minutes / CENTURY;
    double angle = row[3] * t * RADIANS;

    return row[0] * t * t + row[1] * cos(angle) + row[2] * sin(angle);
}

double double_kepler(double e, double mean_anomaly)
{
    double star = 57.29578 * e; /* degrees, 002's constant */
    double anomaly = mean_anomaly + star * sin(mean_anomaly * RADIANS);
    double step;

    do {
        double error = mean_anomaly - (anomaly - star * sin(anomaly * RADIANS));

        step = error / (1.0 - e * cos(anomaly * RADIANS));
        anomaly += step;
    } while (fabs(step) > TOLERANCE);
    return anomaly;
}

/* Step 3: degrees brought to -180 up to 180. */
static double one_turn(double angle)
{
    return angle - 360.0 * floor((angle + 180.0) / 360.0);
}

/* Steps 3 to 5.  Given: the elements, M of any size. */
static void place_of(const double element[6], double mean_anomaly, double out[3])
{
    double a, e, anomaly, x, y, arg, node, tilt;

    a = element[0];
    e = element[1];
    tilt = element[2] * RADIANS;
    arg = (element[4] - element[5]) * RADIANS;
    node = element[5] * RADIANS;
    anomaly = double_kepler(e, one_turn(mean_anomaly)) * RADIANS;

    x = a * (cos(anomaly) - e);                  /* (8-32) */
    y = a * sqrt(1.0 - e * e) * sin(anomaly);

    double cw = cos(arg), sw = sin(arg);         /* (8-34) */
    double cn = cos(node), sn = sin(node);
    double ci = cos(tilt), si = sin(tilt);

    out[0] = (cw * cn - sw * sn * ci) * x + (-sw * cn - cw * sn * ci) * y;
    out[1] = (cw * sn + sw * cn * ci) * x + (-sw * sn + cw * cn * ci) * y;
    out[2] = (sw * si) * x + (cw * si) * y;
}

void double_place(double minutes, int body, double out[3])
{
    double element[6];

    double_elements(minutes, body, element);
    place_of(element, element[3] - element[4], out);
}

void double_place_by_table(double minutes, int table, int body, double out[3])
{
    double element[6], mean_anomaly;

    double_elements_by_table(minutes, table, body, element);
    mean_anomaly = element[3] - element[4];
    if (table == 2 && body >= JUPITER)
        mean_anomaly += extra_terms(minutes, body);
    place_of(element, mean_anomaly, out);
}

/* 000's E(node, tilt, 0): HAE of J2000 to HCI. */
static void hci_of_hae(const double v[3], double out[3])
{
    double cn = cos(SOLAR_NODE), sn = sin(SOLAR_NODE);
    double ci = cos(SOLAR_TILT), si = sin(SOLAR_TILT);

    out[0] = cn * v[0] + sn * v[1];
    out[1] = -sn * ci * v[0] + cn * ci * v[1] + si * v[2];
    out[2] = sn * si * v[0] - cn * si * v[1] + ci * v[2];
}

/* E(node, tilt, theta) is E(node, tilt, 0), then theta about the solar axis.
 * Theta is the Earth's longitude from the node along the solar equator.  000
 * (17) takes it from the Earth's longitude alone; here the Earth's small
 * latitude on the J2000 ecliptic is kept, as document 01's rule keeps it. */
static void heeq_of(const double earth_hae[3], const double hae[3], double out[3])
{
    double hci[3], earth[3], theta;

    hci_of_hae(earth_hae, earth);
    theta = atan2(earth[1], earth[0]);
    hci_of_hae(hae, hci);
    out[0] = cos(theta) * hci[0] + sin(theta) * hci[1];
    out[1] = -sin(theta) * hci[0] + cos(theta) * hci[1];
    out[2] = hci[2];
}

void double_heeq(double minutes, int body, double out[3])
{
    double earth[3], other[3];

    double_place(minutes, EARTH, earth);
    if (body != EARTH)
        double_place(minutes, body, other);
    heeq_of(earth, body != EARTH ? other : earth, out);
}

void double_heeq_by_table(double minutes, int table, int body, double out[3])
{
    double earth[3], other[3];

    double_place_by_table(minutes, table, EARTH, earth);
    if (body != EARTH)
        double_place_by_table(minutes, table, body, other);
    heeq_of(earth, body != EARTH ? other : earth, out);
}
