#!/usr/bin/env python3
"""How far the exact places lie from places worked out in double precision.

    python3 distance.py [DATES]                    beside double.c, per body
    python3 distance.py --true-sine [DATES]        the same without 01's sine table
    python3 distance.py --mean [DATES]             the means without it: x, y, z, distance
    python3 distance.py --picture FILE.svg         the first as a picture over the years
    python3 distance.py --plan94 [DATES]           beside ERFA's eraPlan94 (plan94.c)
    python3 distance.py --nights                   six viewing nights beside eraPlan94's
    python3 distance.py --lengths [DATES]          the least L of HEE's and HEEQ's vectors
    python3 distance.py --allowance [DATES]        coordinates beside double.c, per frame
    python3 distance.py --between-tables [DATES]   table 1 beside table 2, per body
    python3 distance.py --picture-tables FILE.svg  the same as a picture over the years

Those without a picture that work with one table take --table 2 too, but for
--allowance, since rows are table 1's.  The C sources are built with cc into a
temporary folder; --plan94 and --nights need Debian's liberfa-dev.  The dates are
spread over the table's whole interval, and over table 1's, which lies within table
2's, where both are asked: both ends, and one at random in each of DATES equal parts.
"""

import argparse
import ctypes
import math
import os
import random
import subprocess
import sys
import tempfile

sys.dont_write_bytecode = True      # leave no cache beside the sources

import exact
import picture
import selftest

HERE = os.path.dirname(os.path.abspath(__file__))
ARC_SECONDS = 3600 * 180 / math.pi


def build(folder, name, *libraries):
    """A C source of this folder as a loaded shared library."""
    path = os.path.join(folder, name + ".so")
    source = os.path.join(HERE, name + ".c")
    subprocess.run(["cc", "-O2", "-shared", "-fPIC", "-o", path, source,
                    *libraries, "-lm"], check=True)
    return ctypes.CDLL(path)


def place_function(library, name, *table):
    """A C function (minutes, body, out[3]) as a Python function to a tuple.

    Where a table is given, the C function takes it after the minutes.
    """
    call = getattr(library, name)
    call.argtypes = [ctypes.c_double, *(ctypes.c_int for _ in table), ctypes.c_int,
                     ctypes.POINTER(ctypes.c_double)]
    call.restype = ctypes.c_int

    def place(minute, body):
        out = (ctypes.c_double * 3)()
        call(minute, *table, body, out)
        return tuple(out)
    return place


def spread_minutes(count, table=1, seed=1):
    """Both ends, and one random minute in each of count equal parts."""
    chance = random.Random(seed)
    first, last = exact.INTERVALS[table]
    inner = [first + int((last - first) * (k + chance.random()) / count)
             for k in range(count)]
    return [first, *inner, last]


def dot_product(a, b):
    return sum(one * other for one, other in zip(a, b))


def cross_product(a, b):
    return (a[1] * b[2] - a[2] * b[1], a[2] * b[0] - a[0] * b[2], a[0] * b[1] - a[1] * b[0])


def difference(counts, other):
    """The distance in 10^-7 au, and the angle at the Sun in seconds of arc."""
    across = math.hypot(*cross_product(counts, other))
    angle = math.atan2(across, dot_product(counts, other))
    return math.dist(counts, other), angle * ARC_SECONDS


def accepted_place(minute, body, frame, table):
    status, *counts = exact.place_answer(minute, body, frame, table)
    assert status == 0
    return counts


def distances(place, body, frame, minutes, table=1):
    """(minute, distance, angle) of one body at each minute."""
    for minute in minutes:
        counts = accepted_place(minute, body, frame, table)
        other = [part * exact.AU for part in place(minute, body)]
        yield minute, *difference(counts, other)


def between_tables(body, minutes):
    """(minute, distance, angle) between one body's places by tables 1 and 2."""
    for minute in minutes:
        yield minute, *difference(*(accepted_place(minute, body, exact.HAE, table)
                                    for table in (1, 2)))


def greatest(found):
    """The greatest distance and the greatest angle of some distances."""
    found = list(found)
    return max(row[1] for row in found), max(row[2] for row in found)


def use_true_sine():
    """Puts a rounded true sine in place of the table: shows what the table costs."""
    exact.sine = lambda angle: round(
        exact.UNIT * math.sin(math.radians(angle % exact.TURN / exact.DEGREE)))
    exact.GEI_ROWS, exact.HCI_ROWS = exact.gei_rows(), exact.hci_rows()
    exact.SOLAR_AXIS = exact.HCI_ROWS[2]


def report_double(count, table):
    with tempfile.TemporaryDirectory() as folder:
        library = build(folder, "double")
        places = {exact.HAE: place_function(library, "double_place_by_table", table),
                  exact.HEEQ: place_function(library, "double_heeq_by_table", table)}
        minutes = spread_minutes(count, table)
        print(f"greatest distances over {len(minutes)} dates, exact beside double, "
              f"table {table}")
        print("body     HAE 1e-7 au   HAE arc sec  HEEQ 1e-7 au  HEEQ arc sec")
        for body, name in enumerate(exact.NAMES, 1):
            row = [part for frame, place in places.items() for part in greatest(
                distances(place, body, frame, minutes, table))]
            print(f"{name:8} {row[0]:11.1f} {row[1]:13.3f} "
                  f"{row[2]:13.1f} {row[3]:13.3f}")


def mean_difference(place, body, minutes, table):
    """Means over the minutes: x, y, z of exact minus double in HAE, and the distance."""
    apart = [[count - part * exact.AU for count, part in zip(
        accepted_place(minute, body, exact.HAE, table), place(minute, body))]
        for minute in minutes]
    columns = *zip(*apart), [math.hypot(*parts) for parts in apart]
    return [math.fsum(column) / len(minutes) for column in columns]


def report_mean(count, table):
    """With a true sine, so that what the roundings do shows; see 02, Item 4."""
    use_true_sine()
    with tempfile.TemporaryDirectory() as folder:
        place = place_function(build(folder, "double"), "double_place_by_table", table)
        minutes = spread_minutes(count, table)
        print(f"mean of exact minus double over {len(minutes)} dates, HAE, 1e-7 au, "
              f"true sine, table {table}")
        print("body             x        y        z distance")
        for body, name in enumerate(exact.NAMES, 1):
            means = mean_difference(place, body, minutes, table)
            print(f"{name:8}" + "".join(f"{mean:+9.2f}" for mean in means[:3])
                  + f"{means[3]:9.2f}")


def report_plan94(count, table):
    with tempfile.TemporaryDirectory() as folder:
        place = place_function(build(folder, "plan94", "-lerfa"), "plan94_place")
        minutes = spread_minutes(count, table)
        print(f"greatest distances over {len(minutes)} dates, exact beside eraPlan94, "
              f"table {table}")
        print("body        1e-7 au     arc sec")
        for body, name in enumerate(exact.NAMES[:8], 1):
            apart, angle = greatest(
                distances(place, body, exact.HAE, minutes, table))
            print(f"{name:8} {apart:10.0f} {angle:11.1f}")


def plan94_night(place, body, minute):
    """02, Item 3's rule on eraPlan94's places, by minutes from half a day before."""
    before = None
    for date in range(minute - selftest.DAY // 2, minute + selftest.DAY // 2):
        (px, py, _), (ex, ey, _) = place(date, body), place(date, exact.EARTH)
        cross = px * ey - py * ex
        if exact.is_viewing_date(px * ex + py * ey, cross, before):
            return date
        before = cross
    return None


def report_nights():
    """Minutes after the hour that selftest.py has, of eraPlan94 and of both tables."""
    with tempfile.TemporaryDirectory() as folder:
        place = place_function(build(folder, "plan94", "-lerfa"), "plan94_place")
        print("hour (UT)          body   eraPlan94  table 1  table 2")
        for body, moment in selftest.NIGHTS:
            known = selftest.minute_of_day(moment)
            start = known - selftest.DAY // 2
            found = [exact.viewing_answer(start, 1, selftest.DAY, body, table)[1]
                     for table in (1, 2)]
            late = [night - known for night in (plan94_night(place, body, known), *found)]
            print(f"{moment:%Y-%m-%d %H} h    {exact.NAMES[body - 1]:8}"
                  f"{late[0]:+8d} {late[1]:+8d} {late[2]:+8d}")


def report_between_tables(count):
    minutes = spread_minutes(count)
    print(f"greatest distances over {len(minutes)} dates, table 1 beside table 2")
    print("body        1e-7 au     arc sec")
    for body, name in enumerate(exact.NAMES, 1):
        apart, angle = greatest(between_tables(body, minutes))
        print(f"{name:8} {apart:10.0f} {angle:11.1f}")


def report_lengths(count, table):
    """HEE and HEEQ divide by these; document 01 has no refusal for zero."""
    minutes = spread_minutes(count, table)
    earths = [exact.place_in_hae(minute, exact.EARTH, table) for minute in minutes]
    flat = min(exact.length((x, y, 0)) for x, y, _ in earths)
    across = min(exact.length(exact.cross_product(exact.SOLAR_AXIS,
                                                  exact.unit_vector(earth)))
                 for earth in earths)
    print(f"least lengths over {len(minutes)} dates, table {table}")
    print(f"Earth's (x, y, 0): {flat}")
    print(f"Earth's (x, y, z): {min(map(exact.length, earths))}")
    print(f"S x U:             {across}")


def unit(vector):
    size = math.hypot(*vector)
    return tuple(part / size for part in vector)


def turns_in_doubles(earth):
    """The rows that turn HAE into each frame, with true sines, by the Earth's place."""
    angles = [math.radians(count / exact.DEGREE) for count in (
        exact.OBLIQUITY, exact.SOLAR_NODE, exact.SOLAR_TILT)]
    sin_e, sin_n, sin_i = map(math.sin, angles)
    cos_e, cos_n, cos_i = map(math.cos, angles)
    axis = sin_n * sin_i, -cos_n * sin_i, cos_i
    along = unit((earth[0], earth[1], 0))
    across = unit(cross_product(axis, earth))
    return {exact.HAE: ((1, 0, 0), (0, 1, 0), (0, 0, 1)),
            exact.GEI: ((1, 0, 0), (0, cos_e, -sin_e), (0, sin_e, cos_e)),
            exact.HCI: ((cos_n, sin_n, 0), (-sin_n * cos_i, cos_n * cos_i, sin_i), axis),
            exact.HEE: (along, (-along[1], along[0], 0), (0, 0, 1)),
            exact.HEEQ: (cross_product(across, axis), across, axis)}


def furthest_off(place, body, minutes):
    """The greatest difference of x, y or z in each frame, exact beside double."""
    most = dict.fromkeys(exact.FRAME_NAMES, 0.0)
    for minute in minutes:
        turns, hae = turns_in_doubles(place(minute, exact.EARTH)), place(minute, body)
        for frame, rows in turns.items():
            counts = accepted_place(minute, body, frame, exact.ROW_TABLE)
            turned = (exact.AU * dot_product(row, hae) for row in rows)
            most[frame] = max(most[frame], *(abs(count - part)
                                             for count, part in zip(counts, turned)))
    return most


def report_allowance(count):
    """What a marker should allow a program in doubles (02, Item 5)."""
    with tempfile.TemporaryDirectory() as folder:
        place = place_function(build(folder, "double"), "double_place")
        minutes = spread_minutes(count, exact.ROW_TABLE)
        print(f"greatest difference of a coordinate over {len(minutes)} dates, exact beside "
              "double, 1e-7 au")
        print("body    " + "".join(f"{name:>8}" for name in exact.FRAME_NAMES.values()))
        for body, name in enumerate(exact.NAMES, 1):
            most = furthest_off(place, body, minutes)
            print(f"{name:8}" + "".join(f"{part:8.1f}" for part in most.values()))


def draw(path, count):
    with tempfile.TemporaryDirectory() as folder:
        place = place_function(build(folder, "double"), "double_place")
        minutes = spread_minutes(count)
        curves = [(name, list(distances(place, body, exact.HAE, minutes)))
                  for body, name in enumerate(exact.NAMES, 1)]
    write_picture(path, curves, picture.BESIDE_DOUBLE)


def draw_tables(path, count):
    minutes = spread_minutes(count)
    curves = [(name, list(between_tables(body, minutes)))
              for body, name in enumerate(exact.NAMES, 1)]
    write_picture(path, curves, picture.BETWEEN_TABLES)


def write_picture(path, curves, subject):
    with open(path, "w", encoding="utf-8") as out:
        out.write(picture.svg(curves, subject))
    print(f"{path}: {len(curves[0][1])} dates for each of {len(curves)} bodies")


def arguments():
    parser = argparse.ArgumentParser(description=__doc__.splitlines()[0])
    parser.add_argument("dates", nargs="?", type=int, metavar="DATES")
    parser.add_argument("--table", type=int, choices=(1, 2), default=1)
    kind = parser.add_mutually_exclusive_group()
    kind.add_argument("--picture", metavar="FILE.svg")
    kind.add_argument("--true-sine", action="store_true")
    kind.add_argument("--mean", action="store_true")
    kind.add_argument("--plan94", action="store_true")
    kind.add_argument("--nights", action="store_true")
    kind.add_argument("--lengths", action="store_true")
    kind.add_argument("--allowance", action="store_true")
    kind.add_argument("--between-tables", action="store_true")
    kind.add_argument("--picture-tables", metavar="FILE.svg")
    chosen = parser.parse_args()
    if chosen.table == 2 and (chosen.picture or chosen.between_tables or chosen.allowance
                              or chosen.picture_tables or chosen.nights):
        parser.error("no --table beside this one")
    return chosen


def main():
    chosen = arguments()
    dates = chosen.dates or 20000
    if chosen.picture:
        draw(chosen.picture, dates)
    elif chosen.mean:
        report_mean(dates, chosen.table)
    elif chosen.plan94:
        report_plan94(chosen.dates or 500, chosen.table)
    elif chosen.nights:
        report_nights()
    elif chosen.lengths:
        report_lengths(dates, chosen.table)
    elif chosen.allowance:
        report_allowance(dates)
    elif chosen.between_tables:
        report_between_tables(dates)
    elif chosen.picture_tables:
        draw_tables(chosen.picture_tables, dates)
    else:
        if chosen.true_sine:
            use_true_sine()
        report_double(dates, chosen.table)


if __name__ == "__main__":
    main()
