"""The project's C interface through ctypes: each call answers a plain tuple."""

import ctypes
import itertools
import math
import operator
import os

I64 = ctypes.c_int64
DOUBLE = ctypes.c_double
SIZE = ctypes.c_size_t
BYTES = ctypes.POINTER(ctypes.c_uint8)


def struct_of(whole, real=""):
    """A struct returned by value: int64_t fields, then double fields."""
    fields = [(name, I64) for name in whole.split()]
    fields += [(name, DOUBLE) for name in real.split()]
    return type("Answer", (ctypes.Structure,), {"_fields_": fields})


STATUS_ANGLE = struct_of("status angle")
STATUS_COUNTS = struct_of("status x y z")
STATUS_AU = struct_of("status", "x y z")
STATUS_ELEMENTS = struct_of(
    "status a e inclination mean_longitude perihelion node")
STATUS_GOOD = struct_of("status good")
STATUS_MARK = struct_of("status row")
STATUS_VIEWING = struct_of("status minutes looked")
STATUS_ROW = struct_of("status row_status body frame minutes x y z")


class Date(ctypes.Structure):
    """lindenbrood_date: form 0 is the Julian date, any other the minutes."""

    _fields_ = [("form", I64), ("julian", DOUBLE), ("minutes", I64)]


# Forms that mean minutes, and numbers for the member that a form does not name,
# which is ignored.  They come in a fixed order and not from the chance that makes
# the cases, so that the cases stay what they are.  The lengths 5 and 9 are odd and
# without a common divisor: each of two calls in turn meets every pair.
MINUTES_FORMS = itertools.cycle((1, 2, -1, -2**63, 2**32))
WILD_JULIANS = itertools.cycle((math.nan, 0.0, math.inf, 2451545.0, -math.inf,
                                1e308, 5e-324, -5e-324, 2469808.0))
WILD_MINUTES = itertools.cycle((-2**63, 0, 2**63 - 1, 26_298_000, 26_298_001))


def date_of(date):
    """The struct for a Python float (a Julian date) or int (minutes)."""
    if isinstance(date, float):
        return Date(0, date, next(WILD_MINUTES))
    return Date(next(MINUTES_FORMS), next(WILD_JULIANS), date)


# Name without its prefix: what it answers, and its arguments; those of a dated
# call come after its date.
CALLS = {
    "sine": (I64, [I64]),
    "cosine": (I64, [I64]),
    "eccentric_anomaly": (STATUS_ANGLE, [I64] * 2),
    "to_rtn": (STATUS_COUNTS, [I64] * 6),
    "from_rtn": (STATUS_COUNTS, [I64] * 6),
    "write_row": (I64, [I64] * 7 + [BYTES, SIZE]),
    "read_row": (STATUS_ROW, [BYTES, SIZE]),
    "mark": (STATUS_MARK, [BYTES, SIZE] + [I64] * 2),       # 02, Item 5
}
DATED_CALLS = {
    "elements": (STATUS_ELEMENTS, [I64]),
    "mean_anomaly": (STATUS_ANGLE, [I64]),
    "counts": (STATUS_COUNTS, [I64] * 2),
    "place": (STATUS_AU, [I64] * 2),
    "turn": (STATUS_COUNTS, [I64] * 5),
    "row": (I64, [I64] * 2 + [BYTES, SIZE]),
    "sheet": (STATUS_GOOD, [I64] * 4 + [BYTES, SIZE]),
    # 02, Item 1: the table comes right after the date
    "elements_by_table": (STATUS_ELEMENTS, [I64] * 2),
    "mean_anomaly_by_table": (STATUS_ANGLE, [I64] * 2),
    "counts_by_table": (STATUS_COUNTS, [I64] * 3),
    "place_by_table": (STATUS_AU, [I64] * 3),
    "turn_by_table": (STATUS_COUNTS, [I64] * 6),
    # 02, Item 3: the date is the span's first
    "viewing": (STATUS_VIEWING, [I64] * 3),
    "viewing_by_table": (STATUS_VIEWING, [I64] * 4),
}


class Missing(Exception):
    """The library has no such function."""


class Library:
    """Calls of one shared library, looked up by their names."""

    def __init__(self, path):
        self.library = ctypes.CDLL(os.path.abspath(path))

    def call(self, name):
        """A call without a date, as a Python function."""
        answer, arguments = CALLS[name]
        return self.bind("lindenbrood_" + name, answer, arguments)

    def dated(self, name):
        """A call on a date, which is a float or an int: see date_of."""
        answer, arguments = DATED_CALLS[name]
        function = self.bind("lindenbrood_" + name, answer, [Date] + arguments)
        return lambda date, *rest: function(date_of(date), *rest)

    def bind(self, full, answer, arguments):
        try:
            function = getattr(self.library, full)
        except AttributeError:
            raise Missing(full) from None
        function.restype, function.argtypes = answer, arguments
        if answer is I64:
            return function
        parts = operator.attrgetter(*(name for name, _ in answer._fields_))
        return lambda *given: parts(function(*given))


class Lent:
    """Bytes lent to the library, with more bytes behind that must not change."""

    BEHIND = 16

    def __init__(self, content, chance):
        self.size = len(content)
        whole = bytes(content) + chance.randbytes(self.BEHIND)
        self.behind = whole[self.size:]
        self.array = (ctypes.c_uint8 * len(whole)).from_buffer_copy(whole)

    def arguments(self):
        return self.array, self.size

    def matches(self, content):
        """The lent bytes are the wanted ones, and those behind are as before."""
        return bytes(self.array) == bytes(content) + self.behind
