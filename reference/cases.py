"""Inputs for compare.py: the edges that documents 01 and 02 name, and seeded chance.

A function named some_... takes a random.Random and answers one input; most
inputs are such as document 01 accepts, the others are just outside or wild.
"""

import itertools
import math
import struct
from collections import namedtuple

import exact as x

LEAST, MOST = -2**63, 2**63 - 1
E_EDGES = (0, 1, 2, 89_999_999, 90_000_000)
M_EDGES = sorted({sign * base + more for base in (0, x.QUARTER_TURN, x.HALF_TURN, x.TURN)
                  for sign in (1, -1) for more in (-2, -1, 0, 1, 2)} | {LEAST, MOST})


def some_i64(chance):
    """Any 64-bit signed number: small ones, powers of two, ends, all bits."""
    kind = chance.randrange(4)
    if kind == 0:
        return chance.randint(-20, 20)
    if kind == 1:
        near = chance.choice((1, -1)) * 2**chance.randrange(63)
        return near + chance.randint(-1, 1)
    if kind == 2:
        return chance.choice((LEAST, LEAST + 1, MOST - 1, MOST))
    return chance.randint(LEAST, MOST)


def some_angle(chance):
    """An angle within the turn, at an entry of the table or its end, or any."""
    kind = chance.randrange(5)
    if kind < 2:
        return chance.randint(-x.HALF_TURN, x.HALF_TURN)
    if kind == 2:
        return chance.randint(-3700, 3700) * x.TABLE_STEP + chance.randint(-1, 1)
    if kind == 3:
        return chance.randint(-9, 9) * x.QUARTER_TURN + chance.randint(-2, 2)
    return some_i64(chance)


# ------------------------------------------------------------------ the solver

def some_eccentricity(chance):
    kind = chance.randrange(50)
    if kind == 0:
        return chance.choice((-1, x.E_LIMIT + 1, some_i64(chance)))
    if kind < 5:
        return chance.choice(E_EDGES)
    if kind < 15:
        return chance.choice(x.ORBITS)[0][1]
    return chance.randint(0, x.E_LIMIT)


def some_mean_anomaly(chance):
    kind = chance.randrange(10)
    if kind < 5:
        return chance.randint(-x.HALF_TURN, x.HALF_TURN - 1)
    if kind < 7:
        return chance.randint(-2000, 2000)
    if kind == 7:
        return chance.choice((1, -1)) * x.HALF_TURN + chance.randint(-2000, 2000)
    return some_angle(chance)


def some_tie(chance):
    """An e and an M for which two neighbours leave exactly the same error.

    E and E + 1 tie when 2·10^9·M = F(E) + F(E + 1), so e*·(sin E + sin(E + 1))
    must be an odd multiple of 10^9: a congruence for e*, solved for random E
    until its least solution is an e* that some e has.
    """
    top = x.e_star(x.E_LIMIT)
    while True:
        low = chance.randint(-x.HALF_TURN, x.HALF_TURN - 1)
        both = x.sine(low) + x.sine(low + 1)
        common = math.gcd(both, 2 * x.UNIT)
        if both == 0 or x.UNIT % common:
            continue
        modulus = 2 * x.UNIT // common
        star = x.UNIT // common * pow(both // common, -1, modulus) % modulus
        if star > top:
            continue
        star += chance.randint(0, (top - star) // modulus) * modulus
        e = -(-star * 10**8 // 57_295_780)
        mean = (x.kepler(star, low) + x.kepler(star, low + 1)) // (2 * x.UNIT)
        if mean == x.one_turn(mean):
            assert x.kepler_error(e, mean, low) == x.kepler_error(e, mean, low + 1)
            return e, mean


def solver_edges():
    outside = (-1, x.E_LIMIT + 1, LEAST, MOST)
    return ((e, mean) for e in E_EDGES + outside for mean in M_EDGES)


def solver_cases(chance):
    """The edges, then chance; every fiftieth case is a tie."""
    yield from solver_edges()
    while True:
        yield some_tie(chance)
        for _ in range(49):
            yield some_eccentricity(chance), some_mean_anomaly(chance)


# ----------------------------------------------------------------------- dates

JULIAN_EDGES = (math.nan, -math.nan, math.inf, -math.inf, 0.0, -0.0, 5e-324, -5e-324,
                2.0**-1022, 1e308, -1e308, 1.7976931348623157e308,
                2451545.015625, 2451544.984375, 2469808.0, 2378496.5, 2469807.5)

# What a table's dates are drawn from: its first and last minute, Julian dates that
# are edges, the days around its interval, and the 64ths of a day from J2000.
Span = namedtuple("Span", "first last edges days sixty_fourths")
SPANS = {1: Span(*x.INTERVALS[1], JULIAN_EDGES,
                 (2378496, 2469808), (-4_700_000, 1_200_000)),
         2: Span(*x.INTERVALS[2], JULIAN_EDGES + (625673.5, 2816787.5, 2816788.0),
                 (625673, 2816788), (-117_000_000, 23_500_000))}


def some_minute(chance, table=1):
    """Mostly in the table's interval; else an end or its neighbour, or any."""
    span = SPANS[table]
    kind = chance.randrange(20)
    if kind == 0:
        return some_i64(chance)
    if kind < 3:
        return chance.choice((span.first, span.last, 0)) + chance.randint(-2, 2)
    return chance.randint(span.first, span.last)


def near_julian(chance, minute):
    """A double within some steps of the half minute before the minute."""
    julian = x.EPOCH + (minute - 0.5) / 1440
    for _ in range(chance.randint(0, 3)):
        julian = math.nextafter(julian, chance.choice((-math.inf, math.inf)))
    return julian


def some_julian(chance, table=1):
    """Mostly in the table's interval; half minutes, both ends, all bits, edges."""
    span = SPANS[table]
    kind = chance.randrange(20)
    if kind == 0:
        return chance.choice(span.edges)
    if kind < 3:
        return struct.unpack("<d", chance.randbytes(8))[0]
    if kind < 5:
        end = chance.choice((span.first, span.last + 1))
        return near_julian(chance, end + chance.randint(-1, 1))
    if kind < 10:
        return near_julian(chance, chance.randint(span.first, span.last))
    if kind < 12:       # half minutes that a double holds exactly are 64ths of a day
        return x.EPOCH + chance.randint(*span.sixty_fourths) / 64
    return chance.uniform(*span.days)


def some_date(chance, table=1):
    some = some_julian if chance.random() < 0.4 else some_minute
    return some(chance, table)


def some_number(chance, last):
    """A body or a frame: mostly from 1 to the last, else just outside or any."""
    kind = chance.randrange(40)
    if kind == 0:
        return chance.choice((0, last + 1, -1, 256, 257, 2**32 + 1))
    if kind == 1:
        return some_i64(chance)
    return chance.randint(1, last)


def some_body(chance):
    return some_number(chance, 9)


def some_frame(chance):
    return some_number(chance, 5)


# ---------------------------------------------------------------------- tables

TABLES_TRIED = (1, 2, -1, 0, 3, LEAST, MOST)
# Both ends of both intervals and one minute beyond each.
END_MINUTES = tuple(minute for first, last in x.INTERVALS.values()
                    for minute in (first - 1, first, last, last + 1))
NOT_FINITE = (math.nan, math.inf, -math.inf)
TABLE_DATES = (*END_MINUTES, *(x.EPOCH + minute / 1440 for minute in END_MINUTES),
               0, LEAST, MOST, *NOT_FINITE)


def some_other_table(chance):
    """Hardly ever a table: near 1 and 2, their low bits with more above, or any."""
    return chance.choice((0, 3, -1, -2, 256, 257, 258, 2**32 + 1, 2**32 + 2,
                          some_i64(chance)))


def some_date_by_table(chance, table):
    """A date for a named table; one in ten is drawn from the other's interval."""
    return some_date(chance, 3 - table if chance.randrange(10) == 0 else table)


def cases_by_table(chance, count, *makers):
    """(date, table, ...), count for each table in turn; one in 41 names another."""
    for number in range(count):
        for table in (1, 2):
            yield (some_date_by_table(chance, table), table,
                   *(make(chance) for make in makers))
        if number % 20 == 0:
            yield (some_date(chance, 2), some_other_table(chance),
                   *(make(chance) for make in makers))


# --------------------------------------------------------------------- vectors

def some_part(chance):
    kind = chance.randrange(30)
    if kind == 0:
        return chance.choice((1, -1)) * (x.PART_LIMIT + chance.randint(-1, 0))
    if kind < 4:
        return chance.randint(-20, 20)
    return chance.randint(-x.PART_LIMIT, x.PART_LIMIT)


def some_vector(chance):
    """Three parts within the limit, seldom with one beyond it."""
    vector = [some_part(chance) for _ in range(3)]
    if chance.randrange(25) == 0:
        sign = chance.choice((1, -1))
        beyond = chance.choice((sign * (x.PART_LIMIT + 1), some_i64(chance)))
        vector[chance.randrange(3)] = beyond
    return tuple(vector)


def some_direction(chance):
    parts = [chance.gauss(0, 1) for _ in range(3)]
    size = math.hypot(*parts)
    return [part / size for part in parts]


def place_near_axis(chance):
    """A place whose L of S×R is near refusal 6's limit of 1,000,000."""
    axis = [part / x.UNIT for part in x.SOLAR_AXIS]
    other = some_direction(chance)
    along = sum(a * b for a, b in zip(axis, other))
    across = [b - along * a for a, b in zip(axis, other)]
    slope = 1e-3 * (1 + chance.choice((1e-1, 1e-4, 1e-6)) * chance.uniform(-1, 1))
    slope *= 1 / math.hypot(*across)
    size = chance.choice((1, -1)) * chance.uniform(1e6, 4.9e8)
    return tuple(round(size * (a + slope * b)) for a, b in zip(axis, across))


def some_place(chance):
    """A spacecraft's place: anywhere, near the axis, or with L near 100,000."""
    kind = chance.randrange(10)
    if kind < 5:
        return some_vector(chance)
    if kind < 8:
        return place_near_axis(chance)
    size = 100_000 + chance.uniform(-3, 3)
    if kind == 8:
        return tuple(round(size * part) for part in some_direction(chance))
    place = [0, 0, 0]
    place[chance.randrange(3)] = chance.choice((1, -1)) * round(size)
    return tuple(place)


# ------------------------------------------------------------- rows and sheets

def some_good_fields(chance):
    """The fields of a row that the reader takes."""
    if chance.randrange(4) == 0:
        return [chance.randint(1, 4)] + [0] * 6
    minute = chance.choice((x.FIRST_MINUTE, x.LAST_MINUTE,
                            chance.randint(x.FIRST_MINUTE, x.LAST_MINUTE)))
    return [0, chance.randint(1, 9), chance.randint(1, 5), minute,
            *(some_i64(chance) for _ in range(3))]


def some_fields(chance):
    """Fields to be written, often with one that makes them no row."""
    fields = some_good_fields(chance)
    if chance.randrange(2) == 0:
        at = chance.randrange(7)
        outside = (0, 1, -1, 4, 5, 6, 9, 10, 255, 256, x.FIRST_MINUTE - 1,
                   x.LAST_MINUTE + 1, some_i64(chance))
        fields[at] = chance.choice(outside)
    return fields


def some_bytes_of_row(chance):
    """Bytes to be read: a row, a damaged one, a cut or longer one, or any bytes."""
    content = bytearray(x.row_bytes(x.Row(*some_good_fields(chance))))
    kind = chance.randrange(8)
    if kind < 4:
        at = chance.randrange(chance.choice((6, 38)))
        content[at] = chance.choice((content[at] ^ 1 << chance.randrange(8),
                                     chance.randrange(256), 0))
    elif kind == 4:
        content = content[:chance.randrange(39)]
    elif kind == 5:
        content += chance.randbytes(chance.randrange(40))
    elif kind == 6:
        content = bytearray(x.ROW_HEAD + chance.randbytes(35))
        content[3] = chance.randrange(6)
    return bytes(content)


def some_buffer(chance):
    """A buffer for one row: 38 bytes, any length up to 39, or longer."""
    size = chance.choice((38, 38, chance.randint(0, 39), chance.randint(38, 120)))
    return chance.randbytes(size)


def some_start(chance):
    """A sheet's start: near the ends often, so that sheets enter and leave."""
    if chance.randrange(3) == 0:
        end = chance.choice((x.FIRST_MINUTE, x.LAST_MINUTE))
        minute = end + chance.randint(-300_000_000, 300_000_000) // 10**chance.randrange(8)
        return minute if chance.randrange(2) else x.EPOCH + minute / 1440
    return some_date(chance)


def some_sheet(chance):
    """(start, step, count, body, frame, buffer) of a sheet."""
    step = chance.choice((1, 1_000_000, 1440, chance.randint(1, 1_000_000)))
    count = chance.choice((chance.randint(0, 30), chance.randint(0, 30),
                           chance.randint(0, 30), chance.randint(0, 400)))
    kind = chance.randrange(30)
    if kind == 0:
        step = chance.choice((0, -1, 1_000_001, some_i64(chance)))
    elif kind == 1:
        count = chance.choice((-1, 401, some_i64(chance)))
    elif kind == 2:
        count = chance.choice((0, 1, 399, 400))
    room = x.ROW_SIZE * min(max(count, 0), 402)
    size = max(room + chance.choice((0, 0, 0, 0, 50, -1, -room)), 0)
    return (some_start(chance), step, count, some_body(chance), some_frame(chance),
            chance.randbytes(size))


# -------------------------------------------------------------- viewing nights

# A table of None is the call that names none.
Search = namedtuple("Search", "start table step count body")
STEPS_TRIED = (1, 1_000_000, 0, -1, 1_000_001, LEAST, MOST)
COUNTS_TRIED = (1, 2, x.MOST_DATES, 0, -1, x.MOST_DATES + 1, LEAST, MOST)
BODIES_TRIED = (4, 3, 0, 10, LEAST, MOST)
PLANETS = tuple(body for body in range(1, 10) if body != x.EARTH)
DAY = 1440


def table_of(search):
    return x.DEFAULT_TABLE if search.table is None else search.table


def search_edges():
    """Every refusal beside every other: a wrong order shows."""
    starts = (0, LEAST, MOST, *NOT_FINITE)
    return itertools.starmap(Search, itertools.product(
        starts, (None, *TABLES_TRIED), STEPS_TRIED, COUNTS_TRIED, BODIES_TRIED))


def spans_tried(table):
    """(step, count): short ones, and 4,000 dates that just fill the interval or do not."""
    first, last = x.INTERVALS[table]
    filling = (last - first) // (x.MOST_DATES - 1)
    return ((1, 1), (1, 2), (7, 30), (DAY, 2), (DAY, 30), (1_000_000, 1), (1_000_000, 2),
            (1_000_000, 30), (filling, x.MOST_DATES), (filling + 1, x.MOST_DATES))


def starts_tried(table, step, count):
    """The span's first or last date at an end of the interval, or a minute off it."""
    first, last = x.INTERVALS[table]
    return (end + more for end in (first, last, last - (count - 1) * step)
            for more in (-1, 0, 1))


def span_edges():
    """Those spans and starts for all bodies, as minutes and as Julian dates."""
    for table in (None, 1, 2):
        number = table or x.DEFAULT_TABLE
        for step, count in spans_tried(number):
            starts = starts_tried(number, step, count)
            for minute, body in itertools.product(starts, range(11)):
                yield Search(minute, table, step, count, body)
                yield Search(x.EPOCH + minute / DAY, table, step, count, body)


def next_meeting(minute, body, table):
    """The next minute at which planet and Earth have the same mean longitude.

    A viewing night is within some weeks of it, before or after.
    """
    planet, earth = (x.elements(minute, number, table).mean_longitude
                     for number in (body, x.EARTH))
    orbits = x.TABLES[table].orbits
    gain = orbits[body - 1][1][3] - orbits[x.EARTH - 1][1][3]
    apart = (earth - planet if gain > 0 else planet - earth) % (360 * 10**8)
    return minute + apart * x.CENTURY // abs(gain)


def some_form(chance, minute):
    """The minute, or a Julian date that is it or lies within half a minute of it."""
    return chance.choice((minute, minute, x.EPOCH + minute / DAY,
                          near_julian(chance, minute)))


def search_by_days(chance, table, body, minute):
    """From up to two months before a meeting; the step is often a day."""
    start = next_meeting(minute, body, table) - chance.randint(0, 60 * DAY)
    step = chance.choice((DAY, DAY, DAY // 2, chance.randint(100, 5000)))
    return start, step, chance.randint(1, 200)


def search_by_minutes(chance, table, body, minute):
    """From about a day before the night that a search by days finds, or less.

    Where that search is refused, near an interval's end, minute 0 stands in for it.
    """
    start = next_meeting(minute, body, table) - 60 * DAY
    _, night, _ = x.viewing_answer(start, DAY, 120, body, table)
    step = chance.choice((1, 2, 5, 10, chance.randint(1, 100)))
    reach = min(DAY // step + 1, 300)
    return night - chance.randint(-2, reach) * step, step, chance.randint(1, 2 * reach)


def search_for_years(chance, table, body, minute):
    """A day at a time from any date; Venus and Mars often have no night in it."""
    return minute, DAY, chance.randint(200, 1000)


def search_of_large_steps(chance, table, body, minute):
    """Any step, and a count that the interval has room for, or nearly."""
    step = chance.choice((1_000_000, chance.randint(1, 1_000_000),
                          chance.randint(1, 100_000)))
    room = (x.INTERVALS[table][1] - minute) // step + 1
    most = min(room, x.MOST_DATES)
    fewer = chance.randint(1, most)
    return minute, step, chance.choice((most, most + 1, fewer, fewer))


def long_search(chance, table, body, minute):
    """Many dates close together: mostly without a night."""
    return minute, chance.randint(1, 60), chance.randint(1000, x.MOST_DATES)


SEARCHES = (*(search_by_days,) * 8, *(search_by_minutes,) * 5, *(search_for_years,) * 2,
            *(search_of_large_steps,) * 4, long_search)


def some_search(chance):
    """One search of some kind; in one of six a part of it is drawn anew."""
    table, body = chance.choice((None, 1, 2)), chance.choice(PLANETS)
    minute = chance.randint(*x.INTERVALS[table or x.DEFAULT_TABLE])
    make = chance.choice(SEARCHES)
    start, step, count = make(chance, table or x.DEFAULT_TABLE, body, minute)
    search = Search(some_form(chance, start), table, step, count, body)
    return search if chance.randrange(6) else spoiled(chance, search)


def spoiled(chance, search):
    """The search with one part such as the call refuses, or seldom takes."""
    new = {"start": chance.choice((*NOT_FINITE, some_date(chance, 3 - table_of(search)))),
           "table": some_other_table(chance),
           "step": chance.choice((*STEPS_TRIED, some_i64(chance))),
           "count": chance.choice((*COUNTS_TRIED, some_i64(chance))),
           "body": chance.choice((*BODIES_TRIED, some_i64(chance)))}
    part = chance.choice(Search._fields)
    return search._replace(**{part: new[part]})


def other_counts(chance, search, place):
    """A search with a hit again: up to the hit, to the date before it, and further."""
    further = (chance.randint(place, x.MOST_DATES), x.MOST_DATES)
    return (search._replace(count=count) for count in (place, place - 1, *further))


# -------------------------------------------------------- opposites and halves

HALF = x.UNIT // 2              # a sum of this and whole units ends at a half
# (minute, table, body): a sum of step 5 is a half.  Such dates are rare; these were
# found by trying one minute after the other.
HALF_PLACES = ((-84_391_832, 1, 1), (-32_455_384, 1, 1), (-76_582_016, 1, 9),
               (-2_546_804_849, 2, 5), (-1_841_523_596, 2, 5), (-2_476_765_400, 2, 3),
               (-2_149_715_949, 2, 3), (-1_563_976_271, 2, 3))


def opposite(vector):
    return tuple(-part for part in vector)


def some_two_sided_vector(chance):
    """A vector whose opposite has 64 bits too: no part is the least number."""
    return tuple(max(part, LEAST + 1) for part in some_vector(chance))


def some_turn(chance):
    """(date, table, two frames, a two-sided vector); one in 20 names another table."""
    table = chance.randint(1, 2)
    date = some_date_by_table(chance, table)
    named = table if chance.randrange(20) else some_other_table(chance)
    return (date, named, some_frame(chance), some_frame(chance),
            some_two_sided_vector(chance))


def opposite_edges():
    """Every pair of frames at both ends of the intervals, parts at the limit and beyond."""
    limit = x.PART_LIMIT
    vectors = ((limit, limit, limit), (limit, -limit, limit), (0, 0, 0), (1, -1, 2),
               (0, limit + 1, 0), (LEAST + 1, 0, MOST))
    dates = (*(end for ends in x.INTERVALS.values() for end in ends), math.nan)
    return itertools.product(dates, (1, 2, 3), range(7), range(7), vectors)


def any_half(chance, row):
    """A vector for which the row's sum is a half, two of its parts by chance.

    One third part from -499,999,999 to 500,000,000 makes it so, where its entry of
    the row has no common divisor with 10^9; None stands for where it has.
    """
    at = chance.randrange(3)
    if math.gcd(row[at], x.UNIT) != 1:
        return None
    vector = [some_part(chance) for _ in range(3)]
    vector[at] = 0
    rest = sum(a * b for a, b in zip(row, vector))
    part = (HALF - rest) * pow(row[at], -1, x.UNIT) % x.UNIT
    vector[at] = part if part <= HALF else part - x.UNIT
    return tuple(vector)


def small_half(chance, row):
    """The same with a sum of 1/2, 3/2 or 5/2 of a unit, of either sign.

    With two entries a and b that have no common divisor, a·u + b·v can be any
    number, with a u within |b| / 2; None stands for where they have one, or where
    u or v is beyond the limit.
    """
    first, second, third = chance.sample(range(3), 3)
    a, b, divisor = row[first], row[second], abs(row[second])
    if divisor < 2 or math.gcd(a, b) != 1:
        return None
    vector = [0, 0, 0]
    vector[third] = chance.randint(-20, 20)
    wanted = chance.choice((1, -1, 3, -3, 5, -5)) * HALF - row[third] * vector[third]
    u = wanted * pow(a, -1, divisor) % divisor
    vector[first] = u if u <= divisor // 2 else u - divisor
    vector[second] = (wanted - a * vector[first]) // b
    return tuple(vector) if x.parts_in_limit(*vector) else None


def vector_for_half(chance, rows):
    """A vector for which one of the rows ends at a half, or None: then draw anew."""
    make = chance.choice((any_half, any_half, small_half))
    return make(chance, chance.choice(rows))


def vector_reaching(wanted, rows):
    """A vector that turns into the wanted one by the rows' way back, or None.

    What a try lacks is turned and added to it.  Not every vector can be reached.
    """
    back, vector, lacking = x.transposed(rows), (0, 0, 0), wanted
    for _ in range(5):
        vector = tuple(map(sum, zip(vector, x.apply_rows(rows, lacking))))
        lacking = tuple(w - v for w, v in zip(wanted, x.apply_rows(back, vector)))
        if not any(lacking):
            return vector if x.parts_in_limit(*vector) else None
    return None


def some_half_turn(chance):
    """(minute, table, two frames, vector): a turn that ends at a half.

    Where it is one of two by way of HAE, it is the first or the second of them.
    """
    while True:
        table = chance.randint(1, 2)
        minute = chance.randint(*x.INTERVALS[table])
        frame, other = chance.sample((x.GEI, x.HCI, x.HEE, x.HEEQ), 2)
        other = chance.choice((x.HAE, other))
        rows = x.frame_rows(minute, frame, table)
        if chance.randrange(2):
            frames = frame, other
            vector = vector_for_half(chance, x.transposed(rows))
        else:
            frames = other, frame
            vector = vector_for_half(chance, rows)
            if vector and other != x.HAE:
                vector = vector_reaching(vector, x.frame_rows(minute, other, table))
        if vector:
            return minute, table, *frames, vector


def some_half_by_rtn(chance):
    """(whether it is the way back, place, vector) of a turn by RTN that ends at a half."""
    while True:
        back, place = chance.randrange(2) == 1, some_place(chance)
        status, rows = x.rtn_rows(place) if x.parts_in_limit(*place) else (5, None)
        if status == 0:
            vector = vector_for_half(chance, x.transposed(rows) if back else rows)
            if vector:
                return back, place, vector


def halves_among(rows, vector):
    """How many of the rows' sums are an odd number of half units."""
    return sum(sum(a * b for a, b in zip(row, vector)) % x.UNIT == HALF for row in rows)


def halves_on_the_way(minute, table, source, target, vector):
    """(turn, halves that it ends at) for each turn between two frames."""
    if source != x.HAE:
        back = x.transposed(x.frame_rows(minute, source, table))
        yield f"{x.FRAME_NAMES[source]} to HAE", halves_among(back, vector)
        vector = x.apply_rows(back, vector)
    if target != x.HAE:
        rows = x.frame_rows(minute, target, table)
        yield f"HAE to {x.FRAME_NAMES[target]}", halves_among(rows, vector)


def halves_by_rtn(back, place, vector):
    """The same for a turn by RTN."""
    _, rows = x.rtn_rows(place)
    if back:
        yield "RTN to HAE", halves_among(x.transposed(rows), vector)
    else:
        yield "HAE to RTN", halves_among(rows, vector)


# --------------------------------------------------------------- marked sheets

# A sheet handed in: its bytes, the count and the allowance that the marker is given,
# and what was done to its rows, by their places counted from 1.
HandedIn = namedtuple("HandedIn", "content count allowed done")
ROW_COUNTS = (0, 1, 2, 3, x.MOST_ROWS - 1, x.MOST_ROWS)
ROW_COUNTS_REFUSED = (-1, x.MOST_ROWS + 1, 2**32, 2**32 + 1, LEAST, MOST)
ALLOWANCES = (0, 1, 100, x.MOST_ALLOWED - 1, x.MOST_ALLOWED)
ALLOWANCES_REFUSED = (-1, x.MOST_ALLOWED + 1, 2**32, 2**32 + 1, LEAST, MOST)
PARTS = ("x", "y", "z")


def right_row(minute, body, frame):
    """Our own row, by the exact program."""
    return x.row_bytes(x.Row(0, body, frame, minute, *x.our_place(minute, body, frame)))


def fields_of(row):
    """The fields of bytes that are a row."""
    status, *fields = x.read_row(row)
    assert status == 0
    return x.Row(*fields)


def with_fields(row, **changed):
    """The bytes with some fields changed, whether they are a row then or not."""
    return x.row_bytes(fields_of(row)._replace(**changed))


def part_added(row, part, more):
    """The row with a number added to x, y or z."""
    return with_fields(row, **{part: getattr(fields_of(row), part) + more})


def parts_far_off(ours):
    """Ends of 64 bits, and what only looks like ours in fewer bits or after a wrap."""
    wrapped = ours + 2**63 if ours < 0 else ours - 2**63
    return (LEAST, LEAST + 1, MOST - 1, MOST, wrapped, max(wrapped - 1, LEAST),
            min(wrapped + 1, MOST), ours + 2**32, ours - 2**32, ours + 2**53)


# What may be done to a right row.  Each function takes chance, the row, the allowance and
# another right row, and answers 38 bytes; they are not always wrong then.

def byte_changed(chance, row, allowed, other):
    """Any byte; in the lower bytes of a number it may still be within the allowance."""
    content = bytearray(row)
    content[chance.randrange(x.ROW_SIZE)] ^= chance.randint(1, 255)
    return bytes(content)


def head_changed(chance, row, allowed, other):
    """Length, version, status, body or frame, often by one: at times another body's row."""
    content, at = bytearray(row), chance.randrange(6)
    content[at] = (content[at] + chance.choice((1, -1, chance.randint(1, 255)))) % 256
    return bytes(content)


def any_bytes(chance, row, allowed, other):
    """By chance alone, or behind a head that is a row's."""
    kept = chance.choice((0, len(x.ROW_HEAD), 6))
    return row[:kept] + chance.randbytes(x.ROW_SIZE - kept)


def length_or_version(chance, row, allowed, other):
    at = chance.randrange(3)
    return row[:at] + bytes([(row[at] + chance.randint(1, 255)) % 256]) + row[at + 1:]


def refused(chance, row, allowed, other):
    return x.refused_row(chance.randint(1, 4))


def refused_with_numbers(chance, row, allowed, other):
    """The status of a refused row over numbers that are still there: no row."""
    return with_fields(row, status=chance.randint(1, 4))


def minute_outside(chance, row, allowed, other):
    return with_fields(row, minutes=chance.choice(
        (x.FIRST_MINUTE - 1, x.LAST_MINUTE + 1, LEAST, MOST, x.INTERVALS[2][0])))


def minute_moved(chance, row, allowed, other):
    """The place of another date, a minute or some days off; slow bodies hardly move."""
    minute = fields_of(row).minutes + chance.choice((-1, 1)) * 10**chance.randrange(6)
    return with_fields(row, minutes=min(max(minute, x.FIRST_MINUTE), x.LAST_MINUTE))


def other_body_or_frame(chance, row, allowed, other):
    """The numbers of one body and frame under the name of another."""
    return with_fields(row, body=chance.randint(1, 9), frame=chance.randint(1, 5))


def one_more(part):
    """One coordinate off by one more than is allowed."""
    def spoil(chance, row, allowed, other):
        return part_added(row, part, chance.choice((1, -1)) * (allowed + 1))
    return spoil


def far_off(chance, row, allowed, other):
    part = chance.choice(PARTS)
    number = chance.choice(parts_far_off(getattr(fields_of(row), part)))
    return with_fields(row, **{part: number})


def part_of_another(chance, row, allowed, other):
    part = chance.choice(PARTS)
    return with_fields(row, **{part: getattr(fields_of(other), part)})


def parts_mixed_up(chance, row, allowed, other):
    """Two coordinates exchanged, or the sign of one turned."""
    ours, (one, two) = fields_of(row), chance.sample(PARTS, 2)
    if chance.randrange(2):
        return with_fields(row, **{one: -getattr(ours, one)})
    return with_fields(row, **{one: getattr(ours, two), two: getattr(ours, one)})


def just_allowed(chance, row, allowed, other):
    """One coordinate off by exactly what is allowed, or all three: not wrong."""
    for part in chance.choice((PARTS, *((part,) for part in PARTS))):
        row = part_added(row, part, chance.choice((1, -1)) * allowed)
    return row


def within(chance, row, allowed, other):
    """As a pupil's program has it: each coordinate a little off."""
    for part in PARTS:
        row = part_added(row, part, chance.randint(-allowed, allowed))
    return row


HARMLESS = {"just allowed": just_allowed, "within": within}
SPOILING = {"a byte changed": byte_changed, "its head changed": head_changed,
            "any bytes": any_bytes, "length or version": length_or_version,
            "refused": refused, "refused with numbers": refused_with_numbers,
            "minute outside": minute_outside, "minute moved": minute_moved,
            "other body or frame": other_body_or_frame,
            **{f"{part} one more": one_more(part) for part in PARTS}, "far off": far_off,
            "part of another row": part_of_another, "parts mixed up": parts_mixed_up}


def some_right_row(chance):
    """Of any body, frame and minute, at times the first or the last."""
    minute = chance.randint(x.FIRST_MINUTE, x.LAST_MINUTE)
    if chance.randrange(8) == 0:
        minute = chance.choice((x.FIRST_MINUTE, x.LAST_MINUTE))
    return right_row(minute, chance.randint(1, 9), chance.randint(1, 5))


def some_right_rows(chance, count):
    """Mostly each of its own; else of one body, by a step, and two of them exchanged."""
    if chance.randrange(4) or count < 2:
        return [some_right_row(chance) for _ in range(count)]
    body, frame = chance.randint(1, 9), chance.randint(1, 5)
    step = chance.randint(1, 100_000)
    start = chance.randint(x.FIRST_MINUTE, x.LAST_MINUTE - step * count)
    rows = [right_row(start + k * step, body, frame) for k in range(count)]
    one, two = chance.sample(range(count), 2)
    rows[one], rows[two] = rows[two], rows[one]
    return rows


def places_spoiled(chance, count):
    """Where wrong rows are put: none, the first, the last, one between, or several."""
    if count == 0:
        return []
    some = chance.choices(range(1, count + 1), k=chance.randint(1, 4))
    return chance.choice(([], [], [1], [count], some[:1], some[:1], some))


def some_allowance(chance):
    """Often 0, often an end, else of any size."""
    return chance.choice((0, 0, *ALLOWANCES, chance.randint(0, 1000),
                          chance.randint(0, x.MOST_ALLOWED)))


def some_marked_count(chance):
    """Mostly some rows; now and then up to 400."""
    kind = chance.randrange(50)
    if kind == 0:
        long = chance.randint(41, x.MOST_ROWS)
        return chance.choice((x.MOST_ROWS - 1, x.MOST_ROWS, long))
    return chance.randint(0, 40) if kind < 6 else chance.randint(1, 12)


def some_size(chance, room, size):
    """How many bytes are lent: all, just the rows, one too few, a row too few, or fewer."""
    kind = chance.randrange(24)
    if kind < 3:
        return max((room - 1, room - x.ROW_SIZE, chance.randint(0, room))[kind], 0)
    return room if kind < 12 else size


def some_handed_in(chance):
    """A sheet, some of its rows spoiled, and all of those behind that do not count."""
    count, allowed = some_marked_count(chance), some_allowance(chance)
    right = some_right_rows(chance, count + chance.choice((0, 0, 1, 2)))
    rows, done = list(right), {}
    behind = range(count + 1, len(rows) + 1)
    spoiled = [(place, chance.choice(list(SPOILING)))
               for place in (*places_spoiled(chance, count), *behind)]
    harmless = [(place, chance.choice(list(HARMLESS))) for place in range(1, count + 1)
                if chance.randrange(3) == 0]
    for place, name in (*harmless, *spoiled):
        make = {**HARMLESS, **SPOILING}[name]
        rows[place - 1] = make(chance, right[place - 1], allowed, chance.choice(right))
        done[place] = name
    content = b"".join(rows) + chance.randbytes(chance.choice((0, 0, 1, 37)))
    size = some_size(chance, x.ROW_SIZE * count, len(content))
    if chance.randrange(20) == 0:
        count = chance.choice((*ROW_COUNTS_REFUSED, some_i64(chance)))
    if chance.randrange(20) == 0:
        allowed = chance.choice(ALLOWANCES_REFUSED)
    return HandedIn(content[:size], count, allowed, done)


def limit_edges():
    """Counts, allowances and sizes at their limits and beyond; the row behind is wrong."""
    rows = [right_row(97 * k, k % 9 + 1, k % 5 + 1) for k in range(x.MOST_ROWS + 1)]
    for count, allowed in itertools.product((*ROW_COUNTS, *ROW_COUNTS_REFUSED),
                                            (*ALLOWANCES, *ALLOWANCES_REFUSED)):
        counted = min(max(count, 0), x.MOST_ROWS + 1)
        content = b"".join(rows[:counted]) + x.refused_row(2)
        room = x.ROW_SIZE * counted
        for size in {0, room - x.ROW_SIZE, room - 1, room, room + 1, room + x.ROW_SIZE}:
            yield HandedIn(content[:max(size, 0)], count, allowed, {counted + 1: "refused"})


def part_edges():
    """Each coordinate exactly as far off as allowed, one more, and at 64 bits' ends."""
    for body, frame, part in itertools.product(range(1, 10), range(1, 6), PARTS):
        row = right_row(-1000 * body - frame, body, frame)
        ours = getattr(fields_of(row), part)
        numbers = [(allowed, ours + sign * (allowed + more)) for allowed in ALLOWANCES
                   for sign in (1, -1) for more in (0, 1)]
        numbers += itertools.product((0, x.MOST_ALLOWED), parts_far_off(ours))
        for allowed, number in numbers:
            yield HandedIn(with_fields(row, **{part: number}), 1, allowed,
                           {1: f"{part} is {number}, not {ours}"})


def bit_edges():
    """Every bit of a right row and of refused ones turned, one after the other."""
    rows = (right_row(0, 4, 1), right_row(-1, 9, 5), *map(x.refused_row, range(1, 5)))
    for row, allowed, at in itertools.product(rows, (0, 100, x.MOST_ALLOWED),
                                              range(8 * x.ROW_SIZE)):
        content = bytearray(row)
        content[at // 8] ^= 128 >> at % 8
        yield HandedIn(bytes(content), 1, allowed, {1: f"bit {at} turned"})
    for row, allowed in itertools.product(rows, ALLOWANCES):
        yield HandedIn(row, 1, allowed, {})


def marking_edges():
    return itertools.chain(limit_edges(), part_edges(), bit_edges())


def marked_again(handed, place):
    """A sheet with a wrong row again: up to the row before, up to it, and what is behind."""
    yield handed._replace(count=place - 1)
    yield handed._replace(count=place)
    yield handed._replace(content=handed.content[x.ROW_SIZE * place:],
                          count=handed.count - place, done={})
