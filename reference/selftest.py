"""Document 01's checked examples, and what exact.py takes for granted.

Run by `python3 exact.py selftest`; prints what fails, and a last line.
"""

import itertools
import math
import os
import random
import re
import struct
from datetime import datetime, timedelta
from decimal import ROUND_HALF_UP, Context, Decimal
from fractions import Fraction

import cases
import exact as x

LISTING_INPUT = b"26298001 4 1\n0 10 1\n0 4 6\n0 four 1"
LISTING_OUTPUT = b"""minute body frame status x y z
0 0 0 2 0 0 0
0 0 0 3 0 0 0
0 0 0 4 0 0 0
0 0 0 9 0 0 0
"""


def date_examples():
    yield "JD 2451545.015625", x.minute_of_julian(2451545.015625), 23
    yield "JD 2451544.984375", x.minute_of_julian(2451544.984375), -22
    yield "JD 2469808.0", x.date_status(2469808.0), 2
    yield "JD nan", x.date_status(float("nan")), 1
    yield "JD inf", x.date_status(float("inf")), 1
    yield "first JD", x.minute_of_julian(2378496.5), x.FIRST_MINUTE
    yield "last JD", x.minute_of_julian(2469807.5), x.LAST_MINUTE
    yield "last minute", x.date_status(26298000), 0
    yield "after the last", x.date_status(26298001), 2
    yield "first minute", x.date_status(-105189840), 0
    yield "before the first", x.date_status(-105189841), 2


def element_examples():
    for minute, e in ((0, 1671123), (1, 1671122), (-1, 1671123)):
        yield f"body 3, e at {minute}", x.elements(minute, 3).e, e
    yield "body 3, I", x.elements(0, 3).inclination // 100, -16
    for body, mean in ((4, 19390197), (3, -2473111), (5, 19667960)):
        yield f"M of body {body}", x.mean_anomaly_answer(0, body), (0, mean)


def sine_examples():
    for angle, value in ((50000, 872664), (-50000, -872664),
                         (30000000, 500000000), (45000000, 707106781)):
        yield f"sine of {angle}", x.sine(angle), value


def solver_examples():
    yield "M 0", x.eccentric_anomaly_answer(90000000, 0), (0, 0)
    yield "M 1", x.eccentric_anomaly_answer(90000000, 1), (0, 10)
    yield "error of M 1", x.kepler_error(90000000, 1, 10), 27480852
    yield ("M -180", x.eccentric_anomaly_answer(90000000, -180000000),
           (0, -180000000))
    yield "e too large", x.eccentric_anomaly_answer(90000001, 0), (7, 0)
    yield "e too small", x.eccentric_anomaly_answer(-1, 0), (7, 0)
    for mean in (0, 1, -1, 179999999, -180000000, 12345678):
        yield f"e 0, M {mean}", x.eccentric_anomaly_answer(0, mean), (0, mean)


def frame_examples():
    place = (10000000, 0, 0)
    yield "RTN of r", x.to_rtn_answer(place, place), (0,) + place
    yield "RTN back", x.from_rtn_answer(place, place), (0,) + place
    yield "r = 0", x.to_rtn_answer((0, 0, 0), place), (6, 0, 0, 0)
    limit = (500000000, 0, 0)
    yield "part at limit", x.turn_answer(0, 1, 1, limit), (0,) + limit
    beyond = (500000001, 0, 0)
    yield "part beyond", x.turn_answer(0, 1, 1, beyond), (5, 0, 0, 0)


def row_examples():
    good = x.Row(0, 4, 1, -1, -2, 3, -2**63)
    buffer = bytearray(b"\xaa" * 40)
    yield "row written", x.write_row(good, buffer), 0
    yield "bytes after stay", bytes(buffer[38:]), b"\xaa\xaa"
    yield "row read", x.read_row(buffer), (0,) + good
    yield "refused row", x.write_row_of_date(0, 0, 1, buffer), 3
    yield "its bytes", bytes(buffer[:38]), b"\0\x24\1\3" + bytes(34)
    yield "it reads", x.read_row(buffer), (0, 3, 0, 0, 0, 0, 0, 0)
    yield "short slice", x.read_row(buffer[:37]), (9,) + (0,) * 7
    yield "short buffer first", x.write_row((5,) * 7, bytearray(37)), 8
    yield "no fields", x.write_row((5,) * 7, buffer), 9
    yield "sheet step", x.write_sheet(0, 0, 1, 4, 1, bytearray(0)), (10, 0)
    yield "sheet buffer", x.write_sheet(0, 1, 1, 4, 1, bytearray(37)), (8, 0)
    sheet = bytearray(38 * 3)
    yield ("sheet leaves the interval",
           x.write_sheet(x.LAST_MINUTE - 1, 1, 3, 4, 1, sheet), (0, 2))
    yield "its last row", bytes(sheet[76:]), x.refused_row(2)
    yield "listing", x.listing(LISTING_INPUT), LISTING_OUTPUT
    yield "line end", x.listing(LISTING_INPUT + b"\n"), LISTING_OUTPUT
    yield "empty line", x.listing(b"\n"), b"minute body frame status x y z\n0 0 0 9 0 0 0\n"
    yield "no line", x.listing(b""), b"minute body frame status x y z\n"


def table_examples():
    """02, Item 1: table 2's interval; refusal 11 after 1 and before 2."""
    yield "table 2's first JD", x.minute_of_julian(625673.5), -2629254960
    yield "table 2's last JD", x.minute_of_julian(2816787.5), 525949200
    for minute, status in ((-2629254960, 0), (-2629254961, 2),
                           (525949200, 0), (525949201, 2)):
        yield f"table 2, minute {minute}", x.date_status(minute, 2), status
        yield f"table 1, minute {minute}", x.date_status(minute, 1), 2
        yield f"no table, minute {minute}", x.date_status(minute), 2
    for table in (0, 3, -1, 2**63 - 1, -2**63):
        yield f"table {table}", x.elements_answer(0, 4, table), (11,) + (0,) * 6
        yield f"M by table {table}", x.mean_anomaly_answer(0, 4, table), (11, 0)
        yield f"place by table {table}", x.place_answer(0, 4, 1, table), (11, 0, 0, 0)
        yield f"au by table {table}", x.place_in_au(0, 4, 1, table), (11, 0, 0, 0)
        yield f"turn by table {table}", x.turn_answer(0, 1, 2, (1, 2, 3), table)[0], 11
        yield f"1 before table {table}", x.place_answer(math.nan, 0, 0, table)[0], 1
        yield f"table {table} before 2", x.place_answer(2**63 - 1, 0, 0, table)[0], 11
    yield "2 before 3", x.place_answer(525949201, 10, 6, 2)[0], 2
    yield "3 before 4", x.place_answer(525949200, 10, 6, 2)[0], 3
    yield "4 before 5", x.turn_answer(525949200, 1, 6, (2**63, 0, 0), 2)[0], 4


def some_moments(chance, table):
    """Both ends of a table's interval, 0, and some minutes between."""
    first, last = x.INTERVALS[table]
    return [first, 0, last, *(chance.randint(first, last) for _ in range(20))]


def plain_mean_checks(chance):
    """Table 1's M, and that of table 2's bodies 1 to 4: document 01's step 2."""
    for table, bodies in ((1, range(1, 10)), (2, range(1, 5))):
        for body in bodies:
            for minute in some_moments(chance, table):
                _, _, _, _, longitude, perihelion, _ = x.elements_answer(
                    minute, body, table)
                plain = x.one_turn((longitude - perihelion) // 100)
                yield (f"M of {body} at {minute} by table {table}",
                       x.mean_anomaly_answer(minute, body, table), (0, plain))


def true_terms(t, body):
    """b·T² + c·cos(fT) + s·sin(fT) of 002 (8-30) in degrees, with true sines."""
    b, c, s, f = (count / 10**8 for count in x.TABLES[2].terms[body - 1])
    angle = math.radians(f * t)
    return b * t * t + c * math.cos(angle) + s * math.sin(angle)


def true_mean(t, body):
    """002's M by table 2 in degrees, its straight part in fractions of a turn."""
    start, rates = x.TABLES[2].orbits[body - 1]
    straight = start[3] - start[4] + (rates[3] - rates[4]) * t
    return float(straight / 10**8 % 360) + true_terms(t, body)


def extra_term_checks(chance):
    """Table 2's extra terms and M beside (8-30) with true sines.

    A sine of the table is off by less than 4·10^-7, fT's own rounding included,
    the inner floor of b·T² by a count for each century, and each other floor by
    one count.
    """
    for body in range(5, 10):
        _, c, s, _ = x.TABLES[2].terms[body - 1]
        for minute in some_moments(chance, 2):
            t = Fraction(minute, x.CENTURY)
            room = 4e-7 * (abs(c) + abs(s)) + abs(t) + 3
            off = x.extra_terms(minute, body, 2) - true_terms(t, body) * 10**8
            yield f"terms of {body} at {minute}, off by {off}", abs(off) <= room, True
            apart = x.mean_anomaly_answer(minute, body, 2)[1] / 10**6 - true_mean(t, body)
            apart = (apart + 180) % 360 - 180
            yield f"M of {body} at {minute}, off by {apart}", abs(apart) < 3e-6, True


def edition_checks():
    """In 1900 a body's places by the two tables lie within a 200th of its distance."""
    minute = x.minute_of_julian(2415020.5)
    for body, name in enumerate(x.NAMES, 1):
        first, second = (x.place_in_hae(minute, body, table) for table in (1, 2))
        share = math.dist(first, second) / math.hypot(*first)
        yield f"{name} by both tables, {share} of its distance", share < 1 / 200, True


def numbers_in_double(name):
    """The decimals of one of double.c's tables, in order."""
    path = os.path.join(os.path.dirname(os.path.abspath(__file__)), "double.c")
    with open(path, encoding="utf-8") as source:
        table = re.search(name + r"(?:\[\d\])+ = \{(.*?)\};", source.read(), re.DOTALL)
    return [x.hundred_millionths(part) for part in re.findall(r"-?\d+\.\d+", table[1])]


def double_checks():
    """double.c's tables are the same numbers."""
    for number, name in ((1, "table_1"), (2, "table_2a")):
        counts = [part for orbit in x.TABLES[number].orbits
                  for counts in orbit for part in counts]
        yield f"{name} of double.c", numbers_in_double(name), counts
    terms = [part for row in x.TABLES[2].terms[4:] for part in row]
    yield "table_2b of double.c", numbers_in_double("table_2b"), terms


# Mars's oppositions and Venus's inferior conjunctions, in Universal Time to the hour.
# The days came with the request; the hours are in no document here, and rest on
# eraPlan94 (distance.py --nights).  Ephemeris time is 69 seconds ahead of Universal
# Time, which no check below can see.
NIGHTS = ((4, datetime(2018, 7, 27, 5)), (4, datetime(2020, 10, 13, 23)),
          (4, datetime(2022, 12, 8, 6)), (4, datetime(2025, 1, 16, 3)),
          (2, datetime(2020, 6, 3, 18)), (2, datetime(2022, 1, 9, 1)))
DAY = 1440


def minute_of_day(moment):
    return (moment - datetime(2000, 1, 1, 12)) // timedelta(minutes=1)


def night_checks():
    """02, Item 3, beside those nights: by days within one, by minutes within two hours.

    Of the days' searches one begins 30 days before, and one 440 days before: then
    the conjunction beyond the Sun comes first, which is no viewing night.
    """
    for body, moment in NIGHTS:
        known = minute_of_day(moment)
        start = minute_of_day(moment.replace(hour=0)) - 30 * DAY
        status, minute, looked = x.viewing_answer(start, DAY, 60, body, 1)
        off = minute - known
        yield (f"{body} in {moment.year}, off by {off} minutes",
               (status, abs(off) <= DAY), (0, True))
        yield f"{body} in {moment.year}, its place", minute, start + (looked - 1) * DAY
        yield (f"{body} in {moment.year} from beyond the Sun",
               x.viewing_answer(start - 410 * DAY, DAY, 500, body, 1),
               (0, minute, looked + 410))
        for table in (1, 2):
            status, minute, _ = x.viewing_answer(known - 720, 1, DAY, body, table)
            off = minute - known
            yield (f"{body} in {moment.year} by table {table}, off by {off} minutes",
                   (status, abs(off) <= 120), (0, True))


def viewing_rule_examples():
    """A date's dot product, its cross product and that of the date before, in small."""
    for dot, cross, before, hit in (
            (1, 5, -5, True), (1, -5, 5, True), (1, 5, 5, False), (1, -5, -5, False),
            (1, 0, 5, True), (1, 0, -5, True), (1, 0, 0, True), (1, 5, 0, False),
            (1, -5, 0, False), (1, 0, None, True), (1, 5, None, False),
            (1, -5, None, False), (0, 5, -5, False), (0, 0, 5, False),
            (0, 0, None, False), (-1, 5, -5, False), (-1, 0, 5, False)):
        yield (f"dot {dot}, cross {cross} after {before}",
               x.is_viewing_date(dot, cross, before), hit)


def viewing_plane_checks(chance):
    """The Earth beside a planet comes from the same table as the planet.

    A complex product has both sums; Jupiter's are below 2^53, so doubles are exact.
    """
    for table in (1, 2):
        for minute in some_moments(chance, table):
            _, *planet, _ = x.place_answer(minute, 5, x.HAE, table)
            _, *earth, _ = x.place_answer(minute, x.EARTH, x.HAE, table)
            both = complex(*planet).conjugate() * complex(*earth)
            yield (f"dot and cross at {minute} by table {table}",
                   x.dot_and_cross(minute, 5, table), (both.real, both.imag))


def viewing_count_examples():
    """Mars in 2018: no count that reaches the hit changes it."""
    start = minute_of_day(datetime(2018, 6, 27))
    hit = start + 31 * DAY
    for count in (32, 33, 60, 4000):
        yield (f"Mars, {count} dates", x.viewing_answer(start, DAY, count, 4),
               (0, hit, 32))
    for count in (1, 2, 31):
        yield (f"Mars, {count} dates", x.viewing_answer(start, DAY, count, 4),
               (12, 0, count))
    yield "Mars, two dates", x.viewing_answer(hit - DAY, DAY, 2, 4), (0, hit, 2)
    yield "the hit comes first", x.viewing_answer(hit, DAY, 30, 4), (12, 0, 30)
    yield "the hit alone", x.viewing_answer(hit, DAY, 1, 4), (12, 0, 1)
    julian = x.EPOCH + start / DAY
    yield "Mars from a Julian date", x.viewing_answer(julian, DAY, 32, 4), (0, hit, 32)


def viewing_refusal_examples():
    """10, 1, 11, 2, 3 in this order: every case has the later refusals too."""
    beyond = x.LAST_MINUTE + 1
    for step, count in ((0, 1), (-1, 1), (1_000_001, 1), (1, 0), (1, -1), (1, 4001)):
        yield (f"step {step}, count {count}",
               x.viewing_answer(math.nan, step, count, 3, 3), (10, 0, 0))
    for start in (math.nan, math.inf, -math.inf):
        yield f"start {start}", x.viewing_answer(start, 1, 1, 3, 3), (1, 0, 0)
    for table in (0, 3, -1):
        yield (f"search by table {table}",
               x.viewing_answer(beyond, 1, 1, 3, table), (11, 0, 0))
    for table, (first, last) in x.INTERVALS.items():
        for start, status in ((first - 1, 2), (first, 3), (last - 29 * DAY, 3),
                              (last - 29 * DAY + 1, 2), (last, 2)):
            yield (f"span from {start} by table {table}",
                   x.viewing_answer(start, DAY, 30, 3, table), (status, 0, 0))
    yield "no table, its end", x.viewing_answer(beyond - 2, 1, 3, 3), (2, 0, 0)
    for body in (3, 0, 10, -1, 2**63 - 1, -2**63):
        yield f"search for body {body}", x.viewing_answer(0, DAY, 4000, body), (3, 0, 0)
    for step, count in ((1, 4000), (1_000_000, 2)):
        yield (f"step {step}, count {count} accepted",
               x.viewing_answer(0, step, count, 3), (3, 0, 0))


def rising_checks():
    """F rises: no step of the sine, times the largest e*, reaches 10^9."""
    steps = [-(-(b - a) // x.TABLE_STEP) for a, b in zip(x.TABLE, x.TABLE[1:])]
    yield "F rises", max(steps) * x.e_star(x.E_LIMIT) < x.UNIT, True
    yield "table rises", min(steps) >= 0 and x.TABLE == sorted(x.TABLE), True


def sine_checks(chance):
    """The symmetries that document 01 says hold exactly, at random angles."""
    for _ in range(2000):
        t = chance.randint(-2**63, 2**63 - 1)
        yield f"sine of 180° - {t}", x.sine(x.HALF_TURN - t), x.sine(t)
        yield f"sine of -{t}", x.sine(-t), -x.sine(t)
        yield f"turn of {t}", x.sine(x.one_turn(t)), x.sine(t)


def solver_checks(chance):
    """Halving against the brute search, complete for these small e."""
    for _ in range(300):
        e = chance.randint(0, 1500)
        mean = chance.choice([chance.randint(-x.HALF_TURN, x.HALF_TURN),
                              chance.randint(-900, 900),
                              x.HALF_TURN - chance.randint(0, 900),
                              -x.HALF_TURN + chance.randint(0, 900)])
        yield (f"solver {e} {mean}", x.best_eccentric_anomaly(e, mean),
               x.brute_eccentric_anomaly(e, mean))
    for _ in range(2000):
        e, mean = chance.randint(0, x.E_LIMIT), chance.randint(-2**63, 2**63 - 1)
        best = x.best_eccentric_anomaly(e, mean)
        error = x.kepler_error(e, mean, best)
        near = range(max(best - 20, -x.HALF_TURN), min(best + 20, x.HALF_TURN) + 1)
        least = min((x.kepler_error(e, mean, other), other) for other in near)
        yield f"neighbours {e} {mean}", (error, best), least
        yield f"error {e} {mean}", error < x.UNIT, True


MANY_DIGITS = Context(prec=60)      # every number here has fewer


def end_turn_examples():
    """02, Item 4: a half goes away from zero, what is beside it to the nearer number."""
    for number, end in (
            (0, 0), (1, 0), (499_999_999, 0), (500_000_000, 1), (500_000_001, 1),
            (999_999_999, 1), (10**9, 1), (1_499_999_999, 1), (1_500_000_000, 2),
            (1_500_000_001, 2), (2_499_999_999, 2), (2_500_000_000, 3),
            (9_223_372_036_499_999_999, 9_223_372_036),
            (9_223_372_036_500_000_000, 9_223_372_037),
            (2**63 - 1, 9_223_372_037), (2**63, 9_223_372_037)):
        yield f"end of {number}", x.end_turn(number), end
        yield f"end of {-number}", x.end_turn(-number), -end


def end_by_decimal(number):
    """The same by decimal, whose ROUND_HALF_UP is a half away from zero."""
    in_units = MANY_DIGITS.scaleb(Decimal(number), -9)
    return int(in_units.quantize(Decimal(1), ROUND_HALF_UP, MANY_DIGITS))


def some_sum(chance):
    """A number that a turn may end: any of 64 bits, or within one of a half or whole unit."""
    if chance.randrange(2):
        return chance.randint(-2**63, 2**63)
    return chance.randint(-2**34, 2**34) * cases.HALF + chance.randint(-1, 1)


def end_turn_checks(chance):
    """Beside decimal's rounding; opposites end as opposites, half a unit off at most."""
    for _ in range(3000):
        number = some_sum(chance)
        end = x.end_turn(number)
        yield f"end of {number} by decimal", end, end_by_decimal(number)
        yield f"end of the opposite of {number}", x.end_turn(-number), -end
        yield f"{number} and its end", abs(x.UNIT * end - number) <= cases.HALF, True


def nearest_of(fraction):
    """The whole number at the least distance; of two the one further from zero."""
    below = math.floor(fraction)
    return min(below, below + 1,
               key=lambda whole: (abs(whole - fraction), -abs(whole)))


def nearest_sums(rows, vector):
    """Each row's sum of products over 10^9, in fractions, and the nearest whole number."""
    return tuple(nearest_of(sum(Fraction(a * b, x.UNIT) for a, b in zip(row, vector)))
                 for row in rows)


def step_5_checks(chance):
    """A place in HAE has the whole numbers nearest to P·x' + Q·y'."""
    for table, body in itertools.product((1, 2), range(1, 10)):
        for minute in some_moments(chance, table):
            orbit = x.elements(minute, body, table)
            _, mean = x.mean_anomaly_answer(minute, body, table)
            nearest = nearest_sums(x.coefficients(orbit), x.place_in_orbit(orbit, mean))
            yield (f"step 5 of {body} at {minute} by table {table}",
                   x.place_in_hae(minute, body, table), nearest)


def step_5_half_checks():
    """The dates known for a sum of step 5 that is exactly a half."""
    for minute, table, body in cases.HALF_PLACES:
        orbit = x.elements(minute, body, table)
        _, mean = x.mean_anomaly_answer(minute, body, table)
        in_orbit = x.place_in_orbit(orbit, mean)
        halves = cases.halves_among(x.coefficients(orbit), in_orbit)
        yield f"halves of {body} at {minute} by table {table}", halves, 1
        yield (f"place of {body} at {minute} by table {table}",
               x.place_in_hae(minute, body, table),
               nearest_sums(x.coefficients(orbit), in_orbit))


def some_vectors(chance):
    """Some at the limit of the parts, some by chance, small and large."""
    limit = x.PART_LIMIT
    return ((limit, limit, limit), (limit, -limit, limit), (0, 0, -limit), (1, -1, 2),
            *(tuple(chance.randint(-size, size) for _ in range(3))
              for size in (20, 10**5, limit, limit)))


def nearest_turn_checks(chance):
    """Every turn ends at the nearest whole number, both turns by way of HAE do."""
    for table, source, target in itertools.product((1, 2), range(2, 6), range(2, 6)):
        minute = chance.randint(*x.INTERVALS[table])
        to_source, to_target = (x.frame_rows(minute, frame, table)
                                for frame in (source, target))
        for vector in some_vectors(chance) if source != target else ():
            in_hae = nearest_sums(zip(*to_source), vector)
            what = f"{source} to {target} of {vector} at {minute} by table {table}"
            yield f"{what}, in HAE", x.turn(minute, source, x.HAE, vector, table), in_hae
            yield (what, x.turn(minute, source, target, vector, table),
                   nearest_sums(to_target, in_hae))


def opposite_answer(answer):
    """The same status, and the opposite vector; a refused one's zeros are their own."""
    return answer[:1] + cases.opposite(answer[1:])


def opposite_turn_checks(chance):
    """02, Item 4: opposite vectors turn into opposites, and are refused alike."""
    beyond = (0, x.PART_LIMIT + 1, 0), (-2**63 + 1, 1, 2)
    for table, source, target in itertools.product((1, 2), range(1, 6), range(1, 6)):
        minutes = some_moments(chance, table)[:5]
        dates = (*minutes, *(end + more for end, more in zip(x.INTERVALS[table], (-1, 1))),
                 math.nan)
        vectors = *some_vectors(chance), *beyond
        asked = itertools.chain(zip(itertools.cycle(minutes), vectors),
                                zip(dates, itertools.cycle(vectors)))
        for date, vector in asked:
            yield (f"opposite of {vector}, {source} to {target}, {date}, table {table}",
                   x.turn_answer(date, source, target, cases.opposite(vector), table),
                   opposite_answer(x.turn_answer(date, source, target, vector, table)))


def opposite_rtn_checks(chance):
    """The same by RTN both ways, at places with a direction, without, and out of range."""
    limit = x.PART_LIMIT
    places = [(0, 0, 0), (99_999, 0, 0), (0, 100_000, 0), (limit, -limit, limit),
              (limit + 1, 0, 0), tuple(part // 2 for part in x.SOLAR_AXIS),
              *(tuple(chance.randint(-size, size) for _ in range(3))
                for size in (10**5, 10**6, 10**7, limit) for _ in range(20))]
    for place in places:
        for vector in (*some_vectors(chance), (limit + 1, 0, 0)):
            for call in (x.to_rtn_answer, x.from_rtn_answer):
                yield (f"{call.__name__} at {place}, opposite of {vector}",
                       call(place, cases.opposite(vector)),
                       opposite_answer(call(place, vector)))


def earth_on_axis_checks(chance):
    """The Earth's own y is 0 in HEE and HEEQ: the rows' rounding is far below a half."""
    for table in (1, 2):
        for minute, frame in itertools.product(some_moments(chance, table),
                                               (x.HEE, x.HEEQ)):
            _, along, across, _ = x.place_answer(minute, x.EARTH, frame, table)
            yield (f"the Earth in {x.FRAME_NAMES[frame]} at {minute} by table {table}",
                   (along > 9_000_000, across), (True, 0))


def floor_examples():
    """02, Item 4 leaves every other division its floor, as numbers below zero show."""
    for a, b, product in ((-1, 1, -1), (1, 999_999_999, 0), (-1, 400_000_000, -1),
                          (-7, 200_000_000, -2), (7, 400_000_000, 2)):
        yield f"{a}∘{b}", x.unit_product(a, b), product
    yield "a chain of ∘", x.unit_product(-1, 1, 1), -1
    yield "a cross product", x.cross_product((0, 1, 0), (1, 0, 0)), (0, 0, -1)
    yield "its opposite", x.cross_product((1, 0, 0), (0, 1, 0)), (0, 0, 0)
    yield ("a unit vector", x.unit_vector((-1, 2, 2)),
           (-333_333_334, 666_666_666, 666_666_666))
    yield ("its opposite", x.unit_vector((1, -2, -2)),
           (333_333_333, -666_666_667, -666_666_667))


def step_4_checks(chance):
    """x' and y' keep their floors, which cut off less than one and never add."""
    for table, body in itertools.product((1, 2), range(1, 10)):
        for minute in some_moments(chance, table):
            orbit = x.elements(minute, body, table)
            _, mean = x.mean_anomaly_answer(minute, body, table)
            _, anomaly = x.eccentric_anomaly_answer(orbit.e, mean)
            along, across = x.place_in_orbit(orbit, mean)
            minor = orbit.a * math.isqrt(10**18 - 100 * orbit.e**2) // 10**10
            cut = (Fraction(orbit.a * (x.cosine(anomaly) - 10 * orbit.e), 10**10) - along,
                   Fraction(minor * x.sine(anomaly), x.UNIT) - across)
            yield (f"step 4 of {body} at {minute} by table {table}, {cut} cut off",
                   all(0 <= part < 1 for part in cut), True)


def item_4_checks(chance):
    """All of 02, Item 4: what ends otherwise than in document 01, and what does not."""
    return [*end_turn_examples(), *end_turn_checks(chance), *step_5_checks(chance),
            *step_5_half_checks(), *nearest_turn_checks(chance),
            *opposite_turn_checks(chance), *opposite_rtn_checks(chance),
            *earth_on_axis_checks(chance), *floor_examples(), *step_4_checks(chance)]


# A row's bytes once more: length, version, status, body, frame, minutes, x, y, z.
LAYOUT = struct.Struct(">HBBBBqqqq")
MARS = {"length": 36, "version": 1, "status": 0, "body": 4, "frame": 1, "minute": 0,
        "x": 13_906_663, "y": -133_909, "z": -344_612}      # on JD 2451545.0 in HAE
VENUS = LAYOUT.pack(36, 1, 0, 2, 5, -1, *x.place_answer(-1, 2, 5)[1:])


def mars_row(**changed):
    return LAYOUT.pack(*{**MARS, **changed}.values())


def no_rows():
    """Bytes that the reader does not take."""
    outside = x.FIRST_MINUTE - 1, x.LAST_MINUTE + 1, cases.LEAST, cases.MOST
    for field, values in (("length", (0, 35, 37, 38, 36 * 256)), ("version", (0, 2, 255)),
                          ("status", (5, 9, 10, 255)), ("body", (0, 10, 255)),
                          ("frame", (0, 6, 255)), ("minute", outside)):
        for value in values:
            yield f"{field} {value}", mars_row(**{field: value})
    for status in range(1, 5):
        yield f"status {status} over numbers", mars_row(status=status)
        for at in range(4, 38):
            refused = bytearray(x.refused_row(status))
            refused[at] = 1
            yield f"refused with {status}, byte {at} is 1", bytes(refused)


def marking_kind_examples():
    """02, Item 5: what is no row, and what is a refused one, at every place of three.

    The refused row with status 3 has the very bytes that a row call writes for what it
    names, minute 0, body 0 and frame 0.  It is wrong all the same.
    """
    yield "our own row", x.row_of_date(0, 4, 1), mars_row()
    yield "refused, as a row call has it", x.row_of_date(0, 0, 0), x.refused_row(3)
    refused = ((f"refused with {status}", x.refused_row(status)) for status in range(1, 5))
    for what, wrong in (*no_rows(), *refused):
        for place, allowed in itertools.product((1, 2, 3), (0, x.MOST_ALLOWED)):
            rows = [VENUS, mars_row(), VENUS]
            rows[place - 1] = wrong
            sheet = b"".join(rows)
            yield (f"{what} as row {place}, {allowed} allowed",
                   [x.mark_answer(sheet, count, allowed) for count in range(4)],
                   [(0, place if place <= count else 0) for count in range(4)])


def marking_difference_examples():
    """As far off as allowed is right, one more is wrong: each coordinate and sign."""
    for part, allowed, sign in itertools.product("xyz", cases.ALLOWANCES, (1, -1)):
        for more, row in ((0, 0), (1, 1)):
            number = MARS[part] + sign * (allowed + more)
            yield (f"{part} is {number}, {allowed} allowed",
                   x.mark_answer(mars_row(**{part: number}), 1, allowed), (0, row))
    for allowed, signs in itertools.product(cases.ALLOWANCES,
                                            itertools.product((1, -1), repeat=3)):
        corner = {part: MARS[part] + sign * allowed for part, sign in zip("xyz", signs)}
        yield (f"{corner}, {allowed} allowed", x.mark_answer(mars_row(**corner), 1, allowed),
               (0, 0))
    for part, allowed in itertools.product("xyz", (0, x.MOST_ALLOWED)):
        ours = MARS[part]
        for number in (-2**63, -2**63 + 1, 2**63 - 2, 2**63 - 1, ours % 2**64 - 2**63,
                       ours + 2**32, ours - 2**32):
            yield (f"{part} is {number}, {allowed} allowed",
                   x.mark_answer(mars_row(**{part: number}), 1, allowed), (0, 1))


def marking_refusal_examples():
    """10 for a count or a difference outside its range, then 8 for a slice too short."""
    sheet = VENUS * 401
    for count in (-1, 401, -2**63, 2**63 - 1, 2**32):
        for allowed, content in itertools.product((0, -1), (b"", sheet)):
            yield (f"count {count}, {len(content)} bytes",
                   x.mark_answer(content, count, allowed), (10, 0))
    for allowed in (-1, 1_000_001, -2**63, 2**63 - 1, 2**32):
        for count, content in itertools.product((0, 1, 400), (b"", sheet)):
            yield (f"{allowed} allowed, count {count}, {len(content)} bytes",
                   x.mark_answer(content, count, allowed), (10, 0))
    for count, allowed in itertools.product((1, 2, 3, 399, 400), (0, 1_000_000)):
        for more, status in ((-38 * count, 8), (-38, 8), (-1, 8), (0, 0), (1, 0), (38, 0)):
            size = 38 * count + more
            yield (f"count {count}, {size} bytes",
                   x.mark_answer(sheet[:size], count, allowed), (status, 0))
    yield "too short, its first row wrong", x.mark_answer(bytes(75), 2, 0), (8, 0)
    for content in (b"", bytes(1), bytes(38), sheet):
        yield f"count 0 of {len(content)} bytes", x.mark_answer(content, 0, 0), (0, 0)


def marking_first_examples():
    """Of several wrong rows the first is named; one behind those counted is not looked at."""
    wrong = x.refused_row(2), bytes(38), mars_row(x=0)
    for one, two in itertools.permutations(wrong, 2):
        rows = [VENUS, mars_row(), one, VENUS, two, mars_row(), two]
        for count in range(8):
            yield (f"{count} of seven rows", x.mark_answer(b"".join(rows), count, 0),
                   (0, 3 if count >= 3 else 0))
        yield "all wrong", x.mark_answer(one + two + one, 3, 0), (0, 1)
        yield "the rest of them", x.mark_answer(b"".join(rows[3:]), 4, 0), (0, 2)


def plainly_bad(content, count, allowed):
    """The places of all bad rows: a refused one is bad as whatever lacks status 0 is."""
    rows = enumerate(LAYOUT.iter_unpack(content[:38 * count]), 1)
    bad = set(range(1, count + 1))
    for place, (length, version, status, body, frame, minute, *parts) in rows:
        known = body in range(1, 10) and frame in range(1, 6) and x.date_status(minute) == 0
        if (length, version, status, known) == (36, 1, 0, True):
            ours = x.place_answer(minute, body, frame)[1:]
            near = [part in range(our - allowed, our + allowed + 1)
                    for part, our in zip(parts, ours)]
            bad -= {place} if all(near) else set()
    return bad


def plainly_marked(content, count, allowed):
    if count not in range(401) or allowed not in range(1_000_001):
        return 10, 0
    if len(content) < 38 * count:
        return 8, 0
    return 0, min(plainly_bad(content, count, allowed), default=0)


def differing_from_ours(content, count):
    """The places of all rows without the bytes that a row call writes with status 0."""
    for place in range(1, count + 1):
        row = content[38 * (place - 1):38 * place]
        _, _, status, body, frame, minute, *_ = LAYOUT.unpack(row)
        if status or row != x.row_of_date(minute, body, frame):
            yield place


def marking_chance_checks(chance):
    """Sheets as compare.py has them: the least of all bad places, and with 0 the bytes."""
    for number in range(400):
        content, count, allowed, done = cases.some_handed_in(chance)
        answer = x.mark_answer(content, count, allowed)
        what = f"sheet {number}, {count} rows, {allowed} allowed, {done}"
        yield what, answer, plainly_marked(content, count, allowed)
        if answer[0] == 0:
            yield (f"{what}, byte by byte", x.mark_answer(content, count, 0),
                   (0, min(differing_from_ours(content, count), default=0)))


def marking_sheet_checks(chance):
    """Our own sheets are good at any allowance, or else have a first refused row."""
    for number in range(120):
        count, sheet = chance.randint(0, 40), bytearray(38 * 40)
        x.write_sheet(cases.some_start(chance), chance.randint(1, 1_000_000), count,
                      cases.some_body(chance), cases.some_frame(chance), sheet)
        refused = [k + 1 for k in range(count) if sheet[38 * k + 3]]
        for allowed in (0, 1, x.MOST_ALLOWED):
            yield (f"own sheet {number}, {allowed} allowed",
                   x.mark_answer(sheet, count, allowed), (0, min(refused, default=0)))


def item_5_checks(chance):
    """All of 02, Item 5."""
    return [*marking_kind_examples(), *marking_difference_examples(),
            *marking_refusal_examples(), *marking_first_examples(),
            *marking_chance_checks(chance), *marking_sheet_checks(chance)]


def main():
    chance = random.Random(1)
    checks = [*date_examples(), *element_examples(), *sine_examples(),
              *solver_examples(), *frame_examples(), *row_examples(),
              *rising_checks(), *sine_checks(chance), *solver_checks(chance),
              *table_examples(), *plain_mean_checks(chance),
              *extra_term_checks(chance), *edition_checks(), *double_checks(),
              *night_checks(), *viewing_rule_examples(),
              *viewing_plane_checks(chance), *viewing_count_examples(),
              *viewing_refusal_examples(),
              *item_4_checks(random.Random(4)), *item_5_checks(random.Random(5))]
    wrong = [(what, got, wanted) for what, got, wanted in checks if got != wanted]
    for what, got, wanted in wrong:
        print(f"selftest: {what}: got {got}, wanted {wanted}")
    print(f"selftest: {len(checks)} checks, {len(wrong)} wrong")
    return 1 if wrong else 0
