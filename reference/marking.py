#!/usr/bin/env python3
"""A pupil's sheet marked by the exact program: makes host/marking.stdout.

The pupil's own program is double.c.  Its numbers, two figures of one exchanged, are
those typed in host/marking.py.
"""
import os
import sys
import tempfile
from datetime import datetime, timedelta

sys.dont_write_bytecode = True      # leave no cache beside the sources

import distance
import exact as x

MARS = 4
MINUTES = [14_200_560 + 30 * 1440 * k for k in range(10)]      # from 1 January 2027, 0 h
EXAMPLE = os.path.join(distance.HERE, os.pardir, "host", "marking.py")


def pupils_rows():
    """x, y, z in 10^-7 au, rounded to whole units."""
    with tempfile.TemporaryDirectory() as folder:
        place = distance.place_function(distance.build(folder, "double"), "double_place")
        return [tuple(round(part * x.AU) for part in place(minute, MARS))
                for minute in MINUTES]


def with_figures_exchanged(rows):
    """Row 7 with -7638964 for y, where the pupil's program has -7683964."""
    along, across, up = rows[6]
    assert across == -7_683_964
    return [*rows[:6], (along, -7_638_964, up), *rows[7:]]


def check_example(rows):
    """The example has these very rows."""
    with open(EXAMPLE, encoding="utf-8") as source:
        text = source.read()
    missing = [row for row in rows if str(row) not in text]
    assert not missing, f"not in host/marking.py: {missing}"


def calendar_day(minute):
    """The day's date in the Gregorian calendar; minute 0 is noon of 1 January 2000."""
    return (datetime(2000, 1, 1, 12) + timedelta(minutes=minute)).date().isoformat()


def sheet_of(rows):
    buffer = bytearray()
    for minute, numbers in zip(MINUTES, rows):
        row = bytearray(x.ROW_SIZE)
        assert x.write_row((0, MARS, x.HAE, minute, *numbers), row) == 0
        buffer += row
    return buffer


def marked(rows, allowed):
    status, place = x.mark_answer(sheet_of(rows), len(rows), allowed)
    assert status == 0
    if place == 0:
        return "the sheet is good"
    minute = MINUTES[place - 1]
    ours = x.place_answer(minute, MARS, x.HAE)[1:]
    off = [theirs - our for theirs, our in zip(rows[place - 1], ours)]
    return (f"row {place} ({calendar_day(minute)}) is wrong, "
            f"x off by {off[0]}, y by {off[1]}, z by {off[2]}")


def main():
    rows = pupils_rows()
    handed_in = with_figures_exchanged(rows)
    check_example(rows + handed_in)
    print(f"Mars in HAE, {len(rows)} rows from {calendar_day(MINUTES[0])} on, "
          "thirty days apart, units of 10^-7 au")
    print(f"100 units allowed: {marked(handed_in, 100)}")
    print(f"y of row 7 mended: {marked(rows, 100)}")
    print(f"no unit allowed: {marked(rows, 0)}")


main()
