#!/usr/bin/env python3
"""A pupil's sheet marked, from Python: make -C host, then python3 host/marking.py [LIBRARY].

The pupil's own program, in doubles, worked out Mars in HAE on ten dates.  Each row is some units off ours, and in the
seventh two figures of y were exchanged when the sheet was typed.  marking.stdout has the exact program's lines.
"""

import ctypes
import datetime
import pathlib
import sys

BUILT = pathlib.Path(__file__).resolve().parent.parent / "target/host/liblindenbrood.so"
MARS, HAE = 4, 1
START = 14200560  # 1 January 2027, 0 h, in minutes from noon on 1 January 2000, JD 2451545.0
STEP = 43200  # thirty days
ROW_BYTES = 38

# x, y, z in units of 10^-7 au
HANDED_IN = [
    (-10243086, 12882084, 521136),
    (-13039185, 10270235, 534960),
    (-15080087, 7062732, 517781),
    (-16255465, 3449798, 470883),
    (-16491693, -361899, 396790),
    (-15753806, -4151076, 299284),
    (-14050305, -7638964, 183473),
    (-11440928, -10718611, 55893),
    (-8046820, -13013692, -75429),
    (-4061095, -14344616, -201049),
]
MENDED = HANDED_IN[:6] + [(-14050305, -7683964, 183473)] + HANDED_IN[7:]


class Date(ctypes.Structure):
    """lindenbrood_date: form 0 is the Julian date, any other form the minutes."""

    _fields_ = [("form", ctypes.c_int64), ("julian", ctypes.c_double),
                ("minutes", ctypes.c_int64)]


class Counts(ctypes.Structure):
    """lindenbrood_vector_answer: a status, and three whole numbers in units of 10^-7 au."""

    _fields_ = [("status", ctypes.c_int64), ("x", ctypes.c_int64),
                ("y", ctypes.c_int64), ("z", ctypes.c_int64)]


class Mark(ctypes.Structure):
    """lindenbrood_mark_answer: a status, and the first wrong row, 0 where none is wrong."""

    _fields_ = [("status", ctypes.c_int64), ("row", ctypes.c_int64)]


library = ctypes.CDLL(sys.argv[1] if len(sys.argv) > 1 else BUILT)
library.lindenbrood_write_row.argtypes = [ctypes.c_int64] * 7 + [ctypes.c_char_p, ctypes.c_size_t]
library.lindenbrood_write_row.restype = ctypes.c_int64
library.lindenbrood_counts.argtypes = [Date, ctypes.c_int64, ctypes.c_int64]
library.lindenbrood_counts.restype = Counts
library.lindenbrood_mark.argtypes = [ctypes.c_char_p, ctypes.c_size_t, ctypes.c_int64, ctypes.c_int64]
library.lindenbrood_mark.restype = Mark


def minute_of(place):
    """The date of a row, by its place counted from 1."""
    return START + (place - 1) * STEP


def day_of(place):
    noon = datetime.datetime(2000, 1, 1, 12)
    return (noon + datetime.timedelta(minutes=minute_of(place))).date()


def row_of(place, numbers):
    """The row's 38 bytes."""
    row = ctypes.create_string_buffer(ROW_BYTES)
    status = library.lindenbrood_write_row(0, MARS, HAE, minute_of(place), *numbers, row, ROW_BYTES)
    assert status == 0
    return row.raw


def marked(numbers, allowed):
    """What the marker says of a sheet, in words."""
    sheet = b"".join(row_of(place, row) for place, row in enumerate(numbers, 1))
    mark = library.lindenbrood_mark(sheet, len(sheet), len(numbers), allowed)
    assert mark.status == 0
    if mark.row == 0:
        return "the sheet is good"
    ours = library.lindenbrood_counts(Date(form=1, minutes=minute_of(mark.row)), MARS, HAE)
    x, y, z = numbers[mark.row - 1]
    return (f"row {mark.row} ({day_of(mark.row)}) is wrong, "
            f"x off by {x - ours.x}, y by {y - ours.y}, z by {z - ours.z}")


print(f"Mars in HAE, {len(HANDED_IN)} rows from {day_of(1)} on, thirty days apart, units of 10^-7 au")
print("100 units allowed:", marked(HANDED_IN, 100))
print("y of row 7 mended:", marked(MENDED, 100))
print("no unit allowed:", marked(MENDED, 0))
