#!/usr/bin/env python3
"""Mars and its next opposition, from Python: make -C host, then python3 host/example.py [LIBRARY]."""

import ctypes
import pathlib
import sys

BUILT = pathlib.Path(__file__).resolve().parent.parent / "target/host/liblindenbrood.so"


class Date(ctypes.Structure):
    """lindenbrood_date: form 0 is the Julian date, any other form the minutes."""

    _fields_ = [("form", ctypes.c_int64), ("julian", ctypes.c_double),
                ("minutes", ctypes.c_int64)]


class Place(ctypes.Structure):
    """lindenbrood_place_answer: a status, and three doubles in au."""

    _fields_ = [("status", ctypes.c_int64), ("x", ctypes.c_double),
                ("y", ctypes.c_double), ("z", ctypes.c_double)]


class Viewing(ctypes.Structure):
    """lindenbrood_viewing_answer: a status, the minutes of the date found, the dates looked at."""

    _fields_ = [("status", ctypes.c_int64), ("minutes", ctypes.c_int64),
                ("looked", ctypes.c_int64)]


library = ctypes.CDLL(sys.argv[1] if len(sys.argv) > 1 else BUILT)
library.lindenbrood_place.argtypes = [Date, ctypes.c_int64, ctypes.c_int64]
library.lindenbrood_place.restype = Place
library.lindenbrood_viewing.argtypes = [Date, ctypes.c_int64, ctypes.c_int64, ctypes.c_int64]
library.lindenbrood_viewing.restype = Viewing

mars = library.lindenbrood_place(Date(form=0, julian=2451545.0), 4, 1)
print(f"status {mars.status}: Mars at {mars.x} {mars.y} {mars.z} au")
start = Date(form=0, julian=2461361.0)  # noon on 16 November 2026
night = library.lindenbrood_viewing(start, 1440, 4000, 4)  # a day at a time, 4,000 days
julian = 2451545 + night.minutes / 1440
print(f"status {night.status}: Mars at opposition by JD {julian}, {night.looked} dates looked at")
