#!/usr/bin/env python3
"""Documents 01 and 02 in whole numbers of any size: the exact reference program.

Every definition stands here in document 01's words and order, and what one of
document 02's items changes names that item.  So far: 02, Items 1, 3, 4 and 5;
Item 2 needs no rule here.  Only whole numbers and fractions are used, except for
a Julian date that arrives as a double and a place that leaves as doubles.
Sources: 002 (Standish) for the elements and steps, 000 (Fraenz and Harper) for
the frames, 003 for RTN.

A date is a Python float (a Julian date) or a Python int (whole minutes).
A table is 1 or 2, the last argument of a dated call, which may leave it out.
An answer is a tuple whose first part is the status: 0, or the refusal's
number.  Every function takes any integers.

    python3 exact.py listing < lines      the listing of document 01
    python3 exact.py selftest             document 01's checked examples
"""

import functools
import math
import re
import sys
from collections import namedtuple
from fractions import Fraction

# --------------------------------------------------------------------------
# Counts used
# --------------------------------------------------------------------------

UNIT = 10**9                    # the 1 of sines, coefficients and unit vectors
EPOCH = 2451545                 # JD of minute 0, ephemeris time
CENTURY = 52_596_000            # minutes in a century
DEFAULT_TABLE = 1               # "a call that names none gets table 1" (02, Item 1)
INTERVALS = {                   # each table's first and last minute, both accepted
    1: (-105_189_840, 26_298_000),          # JD 2378496.5 to JD 2469807.5
    2: (-2_629_254_960, 525_949_200)}       # JD 625673.5 to JD 2816787.5
FIRST_MINUTE, LAST_MINUTE = INTERVALS[1]
AU = 10**7                      # lengths are counted in 10^-7 au
DEGREE = 10**6                  # angles are counted in millionths of a degree
TURN = 360 * DEGREE
HALF_TURN = 180 * DEGREE
QUARTER_TURN = 90 * DEGREE


def floor(number, divisor=1):
    """"Floor" is toward minus infinity; Python's // is that division."""
    return number // divisor


def unit_product(first, *others):
    """a∘b is floor(a·b / 10^9); longer chains go left to right."""
    for factor in others:
        first = floor(first * factor, UNIT)
    return first


def end_turn(number):
    """The nearest whole number of number / 10^9, a half away from zero (02, Item 4).

    It ends a turn between frames, a turn to or from RTN, and step 5.  // floors, so
    it is done on the number without its sign.
    """
    nearest = floor(abs(number) + UNIT // 2, UNIT)
    return nearest if number >= 0 else -nearest


def whole_root(number):
    """The greatest whole number whose square is not above the number."""
    return math.isqrt(number)


def minute_of_julian(julian):
    """A Julian date d becomes floor((d - 2451545)·1440 + 1/2), exactly.

    A double is a fraction of whole numbers, so Fraction(d) is d itself.
    None stands for a date that is not finite.
    """
    if not math.isfinite(julian):
        return None
    return floor((Fraction(julian) - EPOCH) * 1440 + Fraction(1, 2))


def minute_of(date):
    """A date is given either as a Julian date, a double, or as whole minutes."""
    return minute_of_julian(date) if isinstance(date, float) else date


def date_status(date, table=DEFAULT_TABLE):
    """Refusals 1, 11 and 2, the first that applies (02, Item 1).

    2 speaks of the named table's interval, tested on the rounded minute.
    """
    minute = minute_of(date)
    if minute is None:
        return 1
    if table not in INTERVALS:
        return 11
    first, last = INTERVALS[table]
    return 0 if first <= minute <= last else 2


# --------------------------------------------------------------------------
# Sine
# --------------------------------------------------------------------------

TABLE_STEP = DEGREE // 10       # an entry for each tenth of a degree
P = Fraction(3141592653589793, 10**15)


def table_entry(n):
    """Entry n is floor(10^9·S + 1/2), S = x - x^3/3! + ... + x^17/17!."""
    x = n * P / 1800
    term, series = x, x
    for power in range(3, 19, 2):
        term = -term * x * x / ((power - 1) * power)
        series += term
    return floor(UNIT * series + Fraction(1, 2))


TABLE = [table_entry(n) for n in range(901)]


def one_turn(angle):
    """Brought to -180,000,000 up to but without 180,000,000."""
    return (angle + HALF_TURN) % TURN - HALF_TURN


def sine_of_quarter(t):
    """The sine from 0 to 90 degrees: a straight line between two entries."""
    if t == QUARTER_TURN:
        return TABLE[900]
    k, r = divmod(t, TABLE_STEP)
    return TABLE[k] + (TABLE[k + 1] - TABLE[k]) * r // TABLE_STEP


def sine(angle):
    """sin(180° - t) = sin t and sin(-t) = -sin t hold exactly."""
    t = (angle + HALF_TURN) % TURN - HALF_TURN    # one_turn, kept in line
    if t >= 0:
        return sine_of_quarter(t if t <= QUARTER_TURN else HALF_TURN - t)
    t = -t
    return -sine_of_quarter(t if t <= QUARTER_TURN else HALF_TURN - t)


def cosine(angle):
    """The cosine is the sine of t + 90°."""
    return sine(angle + QUARTER_TURN)


# --------------------------------------------------------------------------
# From date to place
# --------------------------------------------------------------------------

Elements = namedtuple("Elements", "a e inclination mean_longitude perihelion node")
Terms = namedtuple("Terms", "b c s f")      # what M has beside L and perihelion
ElementTable = namedtuple("ElementTable", "orbits terms")

# Table 1 of 002 as printed: elements at J2000, then their rates a century.
TABLE_1 = """
Mercury  0.38709927  0.20563593  7.00497902  252.25032350  77.45779628  48.33076593
         0.00000037  0.00001906 -0.00594749  149472.67411175  0.16047689 -0.12534081
Venus    0.72333566  0.00677672  3.39467605  181.97909950 131.60246718  76.67984255
         0.00000390 -0.00004107 -0.00078890  58517.81538729  0.00268329 -0.27769418
EM_Bary  1.00000261  0.01671123 -0.00001531  100.46457166 102.93768193  0.0
         0.00000562 -0.00004392 -0.01294668  35999.37244981  0.32327364  0.0
Mars     1.52371034  0.09339410  1.84969142  -4.55343205 -23.94362959  49.55953891
         0.00001847  0.00007882 -0.00813131  19140.30268499  0.44441088 -0.29257343
Jupiter  5.20288700  0.04838624  1.30439695  34.39644051  14.72847983 100.47390909
        -0.00011607 -0.00013253 -0.00183714  3034.74612775  0.21252668  0.20469106
Saturn   9.53667594  0.05386179  2.48599187  49.95424423  92.59887831 113.66242448
        -0.00125060 -0.00050991  0.00193609  1222.49362201 -0.41897216 -0.28867794
Uranus  19.18916464  0.04725744  0.77263783 313.23810451 170.95427630  74.01692503
        -0.00196176 -0.00004397 -0.00242939  428.48202785  0.40805281  0.04240589
Neptune 30.06992276  0.00859048  1.77004347 -55.12002969  44.96476227 131.78422574
         0.00026291  0.00005105  0.00035372  218.45945325 -0.32241464 -0.00508664
Pluto   39.48211675  0.24882730 17.14001206 238.92903833 224.06891629 110.30393684
        -0.00031596  0.00005170  0.00004818  145.20780515 -0.04062942 -0.01183482
"""

# Table 2a of 002 as printed, in the same way (02, Item 1).
TABLE_2A = """
Mercury  0.38709843  0.20563661  7.00559432  252.25166724  77.45771895  48.33961819
         0.00000000  0.00002123 -0.00590158  149472.67486623  0.15940013 -0.12214182
Venus    0.72332102  0.00676399  3.39777545  181.97970850 131.76755713  76.67261496
        -0.00000026 -0.00005107  0.00043494  58517.81560260  0.05679648 -0.27274174
EM_Bary  1.00000018  0.01673163 -0.00054346  100.46691572 102.93005885  -5.11260389
        -0.00000003 -0.00003661 -0.01337178  35999.37306329  0.31795260 -0.24123856
Mars     1.52371243  0.09336511  1.85181869  -4.56813164 -23.91744784  49.71320984
         0.00000097  0.00009149 -0.00724757  19140.29934243  0.45223625 -0.26852431
Jupiter  5.20248019  0.04853590  1.29861416  34.33479152  14.27495244 100.29282654
        -0.00002864  0.00018026 -0.00322699  3034.90371757  0.18199196  0.13024619
Saturn   9.54149883  0.05550825  2.49424102  50.07571329  92.86136063 113.63998702
        -0.00003065 -0.00032044  0.00451969  1222.11494724  0.54179478 -0.25015002
Uranus  19.18797948  0.04685740  0.77298127 314.20276625 172.43404441  73.96250215
        -0.00020455 -0.00001550 -0.00180155  428.49512595  0.09266985  0.05739699
Neptune 30.06952752  0.00895439  1.77005520 304.22289287  46.68158724 131.78635853
         0.00006447  0.00000818  0.00022400  218.46515314  0.01009938 -0.00606302
Pluto   39.48686035  0.24885238 17.14104260 238.96535011 224.09702598 110.30167986
         0.00449751  0.00006016  0.00000501  145.18042903 -0.00968827 -0.00809981
"""

# Table 2b of 002 as printed: b, c, s, f; "Pluto has b only".
TABLE_2B = """
Jupiter -0.00012452  0.06064060 -0.35635438 38.35125000
Saturn   0.00025899 -0.13434469  0.87320147 38.35125000
Uranus   0.00058331 -0.97731848  0.17689245  7.67025000
Neptune -0.00041348  0.68346318 -0.10162547  7.67025000
Pluto   -0.01262724
"""


def hundred_millionths(printed):
    """A printed number as its whole count; more decimals would be a slip."""
    count = Fraction(printed) * 10**8
    assert count.denominator == 1
    return count.numerator


def read_table(text):
    """Bodies 1 to 9 are the table's rows in order: (elements, rates) each."""
    lines = [line.split() for line in text.strip().splitlines()]
    counts = [[hundred_millionths(part) for part in line[-6:]] for line in lines]
    names = [line[0] for line in lines[0::2]]
    return names, list(zip(counts[0::2], counts[1::2]))


def read_terms(text, names):
    """b, c, s, f of each named body; what the text does not print is zero."""
    rows = {name: [0] * 4 for name in names}
    for line in text.strip().splitlines():
        name, *printed = line.split()
        rows[name][:len(printed)] = map(hundred_millionths, printed)
    return [Terms(*rows[name]) for name in names]


NAMES, ORBITS = read_table(TABLE_1)
NAMES_2, ORBITS_2 = read_table(TABLE_2A)
TABLES = {1: ElementTable(ORBITS, read_terms("", NAMES)),     # Table 1 has none
          2: ElementTable(ORBITS_2, read_terms(TABLE_2B, NAMES_2))}
EARTH = 3                       # the Earth-Moon barycentre stands for the Earth


def times_centuries(rate, minute):
    """Step 1's floor(rate·m / 52,596,000)."""
    return floor(rate * minute, CENTURY)


def elements(minute, body, table=DEFAULT_TABLE):
    """Step 1: element = x0 + floor(rate·m / 52,596,000)."""
    start, rates = TABLES[table].orbits[body - 1]
    return Elements(*(x0 + times_centuries(rate, minute)
                      for x0, rate in zip(start, rates)))


def extra_terms(minute, body, table=DEFAULT_TABLE):
    """b·T² + c·cos(fT) + s·sin(fT) of 002 (8-30) in element counts (02, Item 1).

    b·T² is step 1's floor done twice; fT is it done once, then divided by 100
    with floor; the others are c∘cos(fT) and s∘sin(fT).
    """
    b, c, s, f = TABLES[table].terms[body - 1]
    angle = floor(times_centuries(f, minute), 100)
    return (times_centuries(times_centuries(b, minute), minute)
            + unit_product(c, cosine(angle)) + unit_product(s, sine(angle)))


def mean_anomaly(orbit, extra):
    """Step 2: L minus the longitude of perihelion, over 100, in one turn.

    The extra terms are added in element counts (02, Item 1); Table 1's are zero.
    """
    return one_turn(floor(orbit.mean_longitude - orbit.perihelion + extra, 100))


def argument_of_perihelion(orbit):
    """Step 2: the longitude of perihelion minus the node, over 100."""
    return floor(orbit.perihelion - orbit.node, 100)


E_LIMIT = 90_000_000            # 0.9, the greatest eccentricity taken


def e_star(e):
    """Step 3: e* = floor(e·57,295,780 / 10^8), 002's constant."""
    return floor(e * 57_295_780, 10**8)


def kepler(star, anomaly):
    """F(E) = 10^9·E - e*·sin E."""
    return UNIT * anomaly - star * sine(anomaly)


def kepler_error(e, mean, anomaly):
    """The error that an E leaves: |10^9·M - F(E)|, M being in one turn."""
    return abs(UNIT * one_turn(mean) - kepler(e_star(e), anomaly))


def best_eccentric_anomaly(e, mean):
    """The whole E from -180° to 180° with the least error, the smaller of two.

    F rises (selftest shows by how much at least), and F(-180°) is not above
    10^9·M, which is below F(180°).  Halving finds the last E with F(E) not
    above 10^9·M; the best E is that one or its neighbour.
    """
    star, target = e_star(e), UNIT * one_turn(mean)
    low, high = -HALF_TURN, HALF_TURN
    while high - low > 1:
        middle = (low + high) // 2
        if kepler(star, middle) <= target:
            low = middle
        else:
            high = middle
    below, above = target - kepler(star, low), kepler(star, high) - target
    return low if below <= above else high


def brute_eccentric_anomaly(e, mean):
    """The same by trying every E that could be best: slow, for testing.

    At E = M the error is at most e*·10^9, and an E further than 2e* from M
    leaves more than that, whatever the sine does.  So no other E can be best.
    min() keeps the first of several least ones, which is the smallest.
    """
    star, middle = e_star(e), one_turn(mean)
    low = max(middle - 2 * star - 1, -HALF_TURN)
    high = min(middle + 2 * star + 1, HALF_TURN)
    return min(range(low, high + 1),
               key=lambda anomaly: abs(UNIT * middle - kepler(star, anomaly)))


def eccentric_anomaly_answer(e, mean):
    """The solver called alone: (status, E); refusal 7 leaves zero."""
    if not 0 <= e <= E_LIMIT:
        return 7, 0
    return 0, best_eccentric_anomaly(e, mean)


def place_in_orbit(orbit, mean):
    """Step 4: x' and y' in the orbital plane, in 10^-7 au."""
    anomaly = best_eccentric_anomaly(orbit.e, mean)
    f = whole_root(10**18 - (10 * orbit.e)**2)
    x = floor(orbit.a * (cosine(anomaly) - 10 * orbit.e), 10**10)
    y = unit_product(floor(orbit.a * f, 10**10), sine(anomaly))
    return x, y


def coefficients(orbit):
    """Step 5: the six coefficients of 002 (8-34), in the order printed there.

    A minus sign before a product is applied after it.  The third pair has no
    second product, so 0 stands in for it.
    """
    omega = argument_of_perihelion(orbit)
    node, tilt = floor(orbit.node, 100), floor(orbit.inclination, 100)
    sin_w, cos_w = sine(omega), cosine(omega)
    sin_n, cos_n = sine(node), cosine(node)
    sin_i, cos_i = sine(tilt), cosine(tilt)
    return (
        (unit_product(cos_w, cos_n) - unit_product(sin_w, sin_n, cos_i),
         -unit_product(sin_w, cos_n) - unit_product(cos_w, sin_n, cos_i)),
        (unit_product(cos_w, sin_n) + unit_product(sin_w, cos_n, cos_i),
         -unit_product(sin_w, sin_n) + unit_product(cos_w, cos_n, cos_i)),
        (unit_product(sin_w, sin_i) + 0,
         unit_product(cos_w, sin_i) + 0))


def place_in_hae(minute, body, table=DEFAULT_TABLE):
    """Steps 1 to 5: the body's place in frame 1, step 5 ended as a turn is (02, Item 4)."""
    orbit = elements(minute, body, table)
    x, y = place_in_orbit(orbit, mean_anomaly(orbit, extra_terms(minute, body, table)))
    return tuple(end_turn(p * x + q * y) for p, q in coefficients(orbit))


def body_status(date, body, table=DEFAULT_TABLE):
    """Refusals 1, 11, 2 and 3, the first that applies."""
    return date_status(date, table) or (0 if 1 <= body <= 9 else 3)


def elements_answer(date, body, table=DEFAULT_TABLE):
    """(status, a, e, I, L, longitude of perihelion, node); zeros if refused."""
    status = body_status(date, body, table)
    if status:
        return (status,) + (0,) * 6
    return (0,) + tuple(elements(minute_of(date), body, table))


def mean_anomaly_answer(date, body, table=DEFAULT_TABLE):
    """(status, M in one turn); zero if refused."""
    status = body_status(date, body, table)
    if status:
        return status, 0
    minute = minute_of(date)
    return 0, mean_anomaly(elements(minute, body, table),
                           extra_terms(minute, body, table))


# --------------------------------------------------------------------------
# Frames: 1 HAE, 2 GEI, 3 HCI, 4 HEE, 5 HEEQ
# --------------------------------------------------------------------------

HAE, GEI, HCI, HEE, HEEQ = 1, 2, 3, 4, 5
FRAME_NAMES = {1: "HAE", 2: "GEI", 3: "HCI", 4: "HEE", 5: "HEEQ"}
OBLIQUITY = 23_439_291          # IAU 1976; 002 prints a wrong one
SOLAR_NODE, SOLAR_TILT = 75_760_000, 7_250_000
PART_LIMIT = 500_000_000


def apply_rows(rows, vector):
    """A coordinate is the row's sum of products over 10^9, ended by 02, Item 4."""
    return tuple(end_turn(sum(a * b for a, b in zip(row, vector)))
                 for row in rows)


def transposed(rows):
    """The way back: the same numbers with rows and columns exchanged."""
    return tuple(zip(*rows))


def gei_rows():
    """002 (8-35)."""
    s, c = sine(OBLIQUITY), cosine(OBLIQUITY)
    return (UNIT, 0, 0), (0, c, -s), (0, s, c)


def hci_rows():
    """000's E(node, tilt, 0)."""
    sin_n, cos_n = sine(SOLAR_NODE), cosine(SOLAR_NODE)
    sin_i, cos_i = sine(SOLAR_TILT), cosine(SOLAR_TILT)
    return ((cos_n, sin_n, 0),
            (-unit_product(sin_n, cos_i), unit_product(cos_n, cos_i), sin_i),
            (unit_product(sin_n, sin_i), -unit_product(cos_n, sin_i), cos_i))


GEI_ROWS, HCI_ROWS = gei_rows(), hci_rows()
SOLAR_AXIS = HCI_ROWS[2]        # "The last row is the solar axis, S."


def length(vector):
    """L = floor of the square root of the sum of squares."""
    return whole_root(sum(part * part for part in vector))


def unit_vector(vector):
    """Each part is floor(v·10^9 / L).

    Document 01 divides by no L of zero: RTN refuses it, and the Earth is never
    at the Sun.  Zeros stand there so that every vector has an answer.
    """
    size = length(vector)
    return tuple(floor(part * UNIT, size) if size else 0 for part in vector)


def cross_product(a, b):
    """Cross products floor each part over 10^9."""
    return (floor(a[1] * b[2] - a[2] * b[1], UNIT),
            floor(a[2] * b[0] - a[0] * b[2], UNIT),
            floor(a[0] * b[1] - a[1] * b[0], UNIT))


def hee_rows(earth):
    """X is the unit vector of the Earth's (x, y, 0), Z is (0, 0, 10^9)."""
    x = unit_vector((earth[0], earth[1], 0))
    return x, (-x[1], x[0], 0), (0, 0, UNIT)


def heeq_rows(earth):
    """With U the unit vector to the Earth, Y = unit(S×U), X = Y×S, Z = S."""
    y = unit_vector(cross_product(SOLAR_AXIS, unit_vector(earth)))
    return cross_product(y, SOLAR_AXIS), y, SOLAR_AXIS


def frame_rows(minute, frame, table=DEFAULT_TABLE):
    """The rows that turn HAE into one of the frames 2 to 5.

    The Earth of HEE and HEEQ comes from the named table (02, Item 1).
    """
    if frame == GEI:
        return GEI_ROWS
    if frame == HCI:
        return HCI_ROWS
    earth = place_in_hae(minute, EARTH, table)
    return hee_rows(earth) if frame == HEE else heeq_rows(earth)


def from_hae(minute, frame, vector, table=DEFAULT_TABLE):
    if frame == HAE:
        return vector
    return apply_rows(frame_rows(minute, frame, table), vector)


def to_hae(minute, frame, vector, table=DEFAULT_TABLE):
    if frame == HAE:
        return vector
    return apply_rows(transposed(frame_rows(minute, frame, table)), vector)


def turn(minute, source, target, vector, table=DEFAULT_TABLE):
    """Between two frames that are not HAE the vector goes by way of HAE.

    Both turns then end by 02, Item 4.  A frame to itself leaves the vector
    unchanged.
    """
    if source == target:
        return vector
    in_hae = to_hae(minute, source, vector, table)
    return from_hae(minute, target, in_hae, table)


def known_frame(frame):
    return 1 <= frame <= 5


def parts_in_limit(*parts):
    return all(-PART_LIMIT <= part <= PART_LIMIT for part in parts)


def turn_answer(date, source, target, vector, table=DEFAULT_TABLE):
    """(status, x, y, z): refusals 1, 11, 2, 4, 5, the date tested for every pair."""
    status = date_status(date, table)
    if not status and not (known_frame(source) and known_frame(target)):
        status = 4
    if not status and not parts_in_limit(*vector):
        status = 5
    if status:
        return status, 0, 0, 0
    return (0,) + tuple(turn(minute_of(date), source, target, tuple(vector), table))


def rtn_rows(place):
    """(status, rows R, T, N): R = unit(r), T = unit(S×R), N = R×T.

    Refusal 6: L of r under 100,000, or L of S×R under 1,000,000.
    """
    if length(place) < 100_000:
        return 6, None
    r = unit_vector(place)
    across = cross_product(SOLAR_AXIS, r)
    if length(across) < 1_000_000:
        return 6, None
    t = unit_vector(across)
    return 0, (r, t, cross_product(r, t))


def rtn_answer(place, vector, back=False):
    """(status, x, y, z) of a vector there or back: refusals 5, then 6."""
    if not parts_in_limit(*place, *vector):
        return 5, 0, 0, 0
    status, rows = rtn_rows(place)
    if status:
        return status, 0, 0, 0
    return (0,) + apply_rows(transposed(rows) if back else rows, vector)


def to_rtn_answer(place, vector):
    """An HAE vector as R, T, N parts."""
    return rtn_answer(place, vector)


def from_rtn_answer(place, vector):
    """R, T, N parts as an HAE vector."""
    return rtn_answer(place, vector, back=True)


def place_answer(date, body, frame, table=DEFAULT_TABLE):
    """(status, x, y, z) for a date, a body and a frame: refusals 1, 11, 2, 3, 4."""
    status = body_status(date, body, table) or (0 if known_frame(frame) else 4)
    if status:
        return status, 0, 0, 0
    minute = minute_of(date)
    place = place_in_hae(minute, body, table)
    return (0,) + tuple(from_hae(minute, frame, place, table))


def place_in_au(date, body, frame, table=DEFAULT_TABLE):
    """Three doubles: the whole count made a double, then one division."""
    status, *counts = place_answer(date, body, frame, table)
    return (status,) + tuple(float(count) / 10_000_000.0 for count in counts)


# --------------------------------------------------------------------------
# Rows and sheets
# --------------------------------------------------------------------------

ROW_SIZE = 38                   # bytes of a row
ROW_HEAD = b"\x00\x24\x01"      # length 36 in two bytes, version 1
ROW_TABLE = 1                   # "Rows and sheets stay with table 1" (02, Item 1)
MOST_ROWS = 400                 # of a sheet
Row = namedtuple("Row", "status body frame minutes x y z")


def fits_eight_bytes(number):
    return -2**63 <= number < 2**63


def is_row(row):
    """What the reader takes, and therefore what the writer may write."""
    if row.status == 0:
        return (1 <= row.body <= 9 and known_frame(row.frame)
                and date_status(row.minutes, ROW_TABLE) == 0
                and all(fits_eight_bytes(part) for part in row[4:]))
    return 1 <= row.status <= 4 and not any(row[1:])


def row_bytes(row):
    """The 38 bytes: big-endian, two's complement."""
    head = ROW_HEAD + bytes([row.status, row.body, row.frame])
    return head + b"".join(part.to_bytes(8, "big", signed=True) for part in row[3:])


def refused_row(status):
    """Length, version, its number, and 34 zero bytes."""
    return ROW_HEAD + bytes([status]) + bytes(34)


def write_row(fields, buffer):
    """A row from its fields; the status: refusal 8, then 9, or 0."""
    if len(buffer) < ROW_SIZE:
        return 8
    row = Row(*fields)
    if not is_row(row):
        return 9
    buffer[:ROW_SIZE] = row_bytes(row)
    return 0


def read_row(slice_):
    """(status, the seven fields): refusal 9 and zeros if the bytes are no row."""
    none = (9,) + (0,) * 7
    if len(slice_) < ROW_SIZE or bytes(slice_[:3]) != ROW_HEAD:
        return none
    words = [int.from_bytes(slice_[at:at + 8], "big", signed=True)
             for at in (6, 14, 22, 30)]
    row = Row(slice_[3], slice_[4], slice_[5], *words)
    return (0,) + tuple(row) if is_row(row) else none


def row_of_date(date, body, frame):
    """The bytes of one row: the place, or the refused row."""
    status, *place = place_answer(date, body, frame, ROW_TABLE)
    if status:
        return refused_row(status)
    return row_bytes(Row(0, body, frame, minute_of(date), *place))


def write_row_of_date(date, body, frame, buffer):
    """A row for a date into lent bytes: refusal 8, or the row's own status."""
    if len(buffer) < ROW_SIZE:
        return 8
    row = row_of_date(date, body, frame)
    buffer[:ROW_SIZE] = row
    return row[3]


def known_step(step):
    """A sheet's step, and that of a search (02, Item 3: "a step as for sheets")."""
    return 1 <= step <= 1_000_000


def write_sheet(start, step, count, body, frame, buffer):
    """(status, good rows): refusals 10, then 8; rows for start, start + step, ...

    A step is whole minutes, so adding it to the start's minute is the exact
    sum.  With a start that is not finite every row has status 1.
    """
    if not (known_step(step) and 0 <= count <= MOST_ROWS):
        return 10, 0
    if len(buffer) < ROW_SIZE * count:
        return 8, 0
    minute, good = minute_of(start), 0
    for k in range(count):
        date = start if minute is None else minute + k * step
        row = row_of_date(date, body, frame)
        buffer[ROW_SIZE * k:ROW_SIZE * (k + 1)] = row
        good += row[3] == 0
    return 0, good


# --------------------------------------------------------------------------
# Marking pupils' sheets (02, Item 5)
# --------------------------------------------------------------------------

MOST_ALLOWED = 1_000_000        # "an allowed difference from 0 to 1,000,000 units"


@functools.lru_cache(maxsize=2**16)     # a sheet is often marked again
def our_place(minute, body, frame):
    """What a row of this minute, body and frame should hold; rows are of table 1."""
    _, *place = place_answer(minute, body, frame, ROW_TABLE)
    return tuple(place)


def is_wrong(slice_, allowed):
    """"no row, or is a refused one, or has a coordinate further off than allowed".

    Each row is judged by its own minute, body and frame.
    """
    reading, *fields = read_row(slice_)
    if reading == 9:
        return True
    row = Row(*fields)
    if row.status != 0:
        return True
    ours = our_place(row.minutes, row.body, row.frame)
    return any(abs(theirs - our) > allowed
               for theirs, our in zip((row.x, row.y, row.z), ours))


def mark_answer(slice_, count, allowed):
    """(status, row): the place, counted from 1, of the first wrong row; 0 is "good".

    Refusals 10, then 8, which name no row.
    """
    if not (0 <= count <= MOST_ROWS and 0 <= allowed <= MOST_ALLOWED):
        return 10, 0
    if len(slice_) < ROW_SIZE * count:
        return 8, 0
    for place in range(1, count + 1):
        if is_wrong(slice_[ROW_SIZE * (place - 1):ROW_SIZE * place], allowed):
            return 0, place
    return 0, 0


# --------------------------------------------------------------------------
# Viewing nights (02, Item 3)
# --------------------------------------------------------------------------

MOST_DATES = 4_000              # of one search


@functools.lru_cache(maxsize=2**16)     # a search is often asked again with another count
def dot_and_cross(minute, body, table):
    """Of planet and Earth, seen from the Sun in the HAE plane: x and y alone."""
    planet_x, planet_y, _ = place_in_hae(minute, body, table)
    earth_x, earth_y, _ = place_in_hae(minute, EARTH, table)
    return (planet_x * earth_x + planet_y * earth_y,
            planet_x * earth_y - planet_y * earth_x)


def is_viewing_date(dot, cross, before):
    """A positive dot product, and a cross product that is zero or of the opposite sign.

    before is the cross product of the date before, None on the first date.  A
    zero has no sign, so nothing is opposite to it.
    """
    opposite = before is not None and cross * before < 0
    return dot > 0 and (cross == 0 or opposite)


def viewing_status(start, step, count, body, table):
    """Refusals 10, 1, 11, 2 and 3, the first that applies.

    2: the span's first or last date is outside.  3: also for body 3.
    """
    if not (known_step(step) and 1 <= count <= MOST_DATES):
        return 10
    status = date_status(start, table)
    if status:
        return status
    last = minute_of(start) + (count - 1) * step
    return date_status(last, table) or (3 if body == EARTH or not 1 <= body <= 9 else 0)


def viewing_answer(start, step, count, body, table=DEFAULT_TABLE):
    """(status, minute, dates looked at): the first viewing date of the span.

    The dates are start, start + step, ...; the number looked at is the place of
    the hit counted from 1.  Refusal 12, no such date in the span, comes last and
    has looked at all of them.
    """
    status = viewing_status(start, step, count, body, table)
    if status:
        return status, 0, 0
    first, before = minute_of(start), None
    for place in range(1, count + 1):
        minute = first + (place - 1) * step
        dot, cross = dot_and_cross(minute, body, table)
        if is_viewing_date(dot, cross, before):
            return 0, minute, place
        before = cross
    return 12, 0, count


# --------------------------------------------------------------------------
# The listing program
# --------------------------------------------------------------------------

HEADER = "minute body frame status x y z"
LISTING_TABLE = 1               # a line names no table; the listing stays with this one
REQUEST = re.compile(rb"(-?[0-9]{1,10}) (-?[0-9]{1,10}) (-?[0-9]{1,10})")


def request_of(line):
    """Minute, body and frame of a line without its end, or None."""
    found = REQUEST.fullmatch(line)
    return tuple(int(number) for number in found.groups()) if found else None


def listing_line(line):
    """The printed line; a refused one has zeros and its status, 9 for no line."""
    request = request_of(line)
    if request is None:
        return "0 0 0 9 0 0 0"
    minute, body, frame = request
    status, *place = place_answer(minute, body, frame, LISTING_TABLE)
    shown = (0, 0, 0, status) if status else (minute, body, frame, 0)
    return " ".join(str(number) for number in (*shown, *place))


def lines_of(text):
    """The lines of some bytes; the last one needs no line end."""
    lines = text.split(b"\n")
    return lines[:-1] if lines[-1] == b"" else lines


def listing(text):
    """All that the listing program prints for some input bytes."""
    printed = [HEADER] + [listing_line(line) for line in lines_of(text)]
    return ("\n".join(printed) + "\n").encode("ascii")


def main(arguments):
    if arguments == ["listing"]:
        sys.stdout.buffer.write(listing(sys.stdin.buffer.read()))
        return 0
    if arguments == ["selftest"]:
        sys.dont_write_bytecode = True      # leave no cache beside the sources
        import selftest
        return selftest.main()
    print("usage: exact.py listing | exact.py selftest", file=sys.stderr)
    return 2


if __name__ == "__main__":
    sys.exit(main(sys.argv[1:]))
