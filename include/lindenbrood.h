/*
 * lindenbrood.h
 *
 * Heliocentric places of nine bodies, vectors turned between Sun-centred
 * frames, the 38-byte rows that a projector reads, the next opposition or
 * inferior conjunction of a planet, and the marking of pupils' sheets.
 *
 * Sources: E. M. Standish, approximate positions of the planets (elements and
 * steps); M. Fraenz and D. Harper 2002, heliospheric coordinate systems
 * (frames).  All arithmetic is in whole numbers, except for a Julian date that
 * comes in as a double and a place that leaves as doubles.
 *
 * C99 and C++.  Link with liblindenbrood.a; it needs nothing but the C library.
 *
 *
 * COUNTS
 *
 *   time      whole minutes from JD 2451545.0, ephemeris time
 *   angle     millionths of a degree
 *   element   hundred-millionths of a degree, of an au, or of 1
 *   length    units of 10^-7 au
 *   sine      units of 10^-9
 *
 * "Floor" is toward minus infinity.
 *
 *
 * DATES
 *
 * A call on a date takes it as its first argument, a lindenbrood_date by value.
 * Where its form is 0 the date is the Julian date, a double; with any other
 * form, a negative one too, it is the whole minutes.  The member that the form
 * does not name is ignored, whatever it holds.  lindenbrood_julian and
 * lindenbrood_minutes make a date of either kind.
 *
 * A Julian date d becomes the minute floor((d - 2451545) * 1440 + 1/2),
 * without any rounding error, before it is tested against the interval of the
 * table used.  Refusal 2 speaks of that minute and not of the Julian date:
 * JD 2469807.5003 rounds to Table 1's last minute and is accepted.
 *
 *
 * TABLES
 *
 *   no.  elements from       first minute               last minute
 *    1   Table 1              -105189840 (JD 2378496.5)   26298000 (JD 2469807.5)
 *    2   Tables 2a and 2b    -2629254960 (JD  625673.5)  525949200 (JD 2816787.5)
 *
 * The tables are Standish's: the first for the years 1800 to 2050, the second
 * for 3000 BC to 3000 AD.  Both ends of each interval are accepted.
 *
 * A call whose name ends in _by_table takes the table's number right after the
 * date.  A call that names no table uses Table 1, and so do all rows and
 * sheets, marked ones too.  On a date that both tables cover their answers
 * differ a little, so that a curve drawn by the one and then by the other has a
 * step in it.
 *
 *
 * BODIES
 *
 *   1  Mercury                  4  Mars        7  Uranus
 *   2  Venus                    5  Jupiter     8  Neptune
 *   3  Earth-Moon barycentre    6  Saturn      9  Pluto
 *
 * Body 3 stands for the Earth.
 *
 *
 * FRAMES (all centred on the Sun)
 *
 *   1  HAE   heliocentric Aries ecliptic of J2000
 *   2  GEI   the Earth's mean equator and equinox of J2000
 *   3  HCI   heliocentric inertial: Z is the Sun's axis, X its ascending node
 *   4  HEE   X toward the Earth in the ecliptic of J2000, Z the ecliptic pole
 *   5  HEEQ  Z is the Sun's axis, X on the Earth's side in the plane of both
 *
 * HEE and HEEQ turn with the Earth's place on the date given, by the table used.
 *
 *
 * STATUS NUMBERS
 *
 *   no.  given exactly when                                left behind
 *    0   the call is answered                              the answer
 *    1   the date has form 0 and a Julian date that is     zeros, or a refused row
 *        not finite
 *    2   the date's minute, or that of a search's last     zeros, or a refused row
 *        date, is outside the interval of the table used
 *    3   the body is not 1 to 9; for a search also body 3  zeros, or a refused row
 *    4   a frame is not 1 to 5                             zeros, or a refused row
 *    5   a part of a given vector or place is beyond       zeros
 *        +-500000000
 *    6   RTN: the place is too near the Sun (L of r under  zeros
 *        100000), or too near the Sun's axis (L of S x R
 *        under 1000000)
 *    7   the eccentricity is under 0 or over 90000000      zero
 *    8   the buffer is shorter than the rows asked for,    zero; a buffer untouched,
 *        to be written or to be marked                     no good row
 *    9   the bytes to be read are no row (fewer than 38    zeros; a buffer untouched
 *        are none), or the fields to be written make none
 *   10   the step of a sheet or a search is not 1 to       zeros; a buffer untouched,
 *        1000000, the count is not 0 to 400 for a sheet    no good row
 *        or a marker, 1 to 4000 for a search, or the
 *        allowance of a marker is not 0 to 1000000
 *   11   the table is not 1 or 2                           zeros
 *   12   no date of the search's span is an opposition or  minutes 0; looked is the
 *        an inferior conjunction                           whole count
 *
 * Where several apply only the first is given, in this order: 10, 8, 1, 11,
 * and then the others by number, so that 12 is last.  Only 0 to 4 stand in rows.
 * A marker gives 0, 8 or 10 and no other: a wrong row is no refusal.
 *
 * Every number given may have any value, each member of a date too: what is
 * out of range is refused by its number, and nothing overflows.  L is the floor
 * of the square root of the sum of the squares.
 *
 *
 * LENT BYTES
 *
 * A call that takes `row` or `rows` uses bytes that the host lends it: `len`
 * bytes from that address on, which nobody else writes while the call runs.
 * Bytes at `len` and after are neither read nor written.  With `len` 0 the
 * address is not used, and only then may it be NULL.
 *
 * Nothing is kept between calls and nothing is allocated, so that calls may
 * run in several threads at once.
 */
#ifndef LINDENBROOD_H
#define LINDENBROOD_H

#include <stddef.h>
#include <stdint.h>

#ifdef __cplusplus
extern "C" {
#endif

enum {
    LINDENBROOD_ANSWERED = 0,
    LINDENBROOD_NOT_FINITE = 1,
    LINDENBROOD_OUTSIDE_INTERVAL = 2,
    LINDENBROOD_NO_SUCH_BODY = 3,
    LINDENBROOD_NO_SUCH_FRAME = 4,
    LINDENBROOD_TOO_FAR = 5,
    LINDENBROOD_NO_DIRECTION = 6,
    LINDENBROOD_NO_ELLIPSE = 7,
    LINDENBROOD_SHORT_BUFFER = 8,
    LINDENBROOD_NO_ROW = 9,
    LINDENBROOD_BAD_COUNT = 10, /* or a bad step or allowance */
    LINDENBROOD_NO_SHEET = 10,  /* its older name */
    LINDENBROOD_NO_SUCH_TABLE = 11,
    LINDENBROOD_NO_SUCH_DATE = 12
};

enum {
    LINDENBROOD_MERCURY = 1,
    LINDENBROOD_VENUS = 2,
    LINDENBROOD_EARTH = 3, /* the Earth-Moon barycentre */
    LINDENBROOD_MARS = 4,
    LINDENBROOD_JUPITER = 5,
    LINDENBROOD_SATURN = 6,
    LINDENBROOD_URANUS = 7,
    LINDENBROOD_NEPTUNE = 8,
    LINDENBROOD_PLUTO = 9
};

enum {
    LINDENBROOD_HAE = 1,
    LINDENBROOD_GEI = 2,
    LINDENBROOD_HCI = 3,
    LINDENBROOD_HEE = 4,
    LINDENBROOD_HEEQ = 5
};

enum {
    LINDENBROOD_TABLE_1 = 1, /* 1800 to 2050; used where no table is named */
    LINDENBROOD_TABLE_2 = 2  /* 3000 BC to 3000 AD */
};

enum {
    LINDENBROOD_FIRST_MINUTE = -105189840, /* of Table 1, JD 2378496.5 */
    LINDENBROOD_LAST_MINUTE = 26298000,    /* of Table 1, JD 2469807.5 */
    LINDENBROOD_PART_LIMIT = 500000000,    /* 50 au */
    LINDENBROOD_E_LIMIT = 90000000,        /* 0.9 */
    LINDENBROOD_ROW_BYTES = 38,
    LINDENBROOD_MOST_ROWS = 400,           /* of a sheet */
    LINDENBROOD_MOST_DATES = 4000,         /* of a search */
    LINDENBROOD_MOST_STEP = 1000000,       /* minutes */
    LINDENBROOD_MOST_ALLOWED = 1000000     /* 10^-7 au, for a marker */
};

/* Table 2's ends.  They are no enum: in C99 its members must fit an int. */
#define LINDENBROOD_TABLE_2_FIRST_MINUTE (-INT64_C(2629254960)) /* JD 625673.5 */
#define LINDENBROOD_TABLE_2_LAST_MINUTE INT64_C(525949200)      /* JD 2816787.5 */

/* A date. */
typedef struct {
    int64_t form;    /* 0: the Julian date; any other: the minutes */
    double julian;   /* Julian date, ephemeris time; ignored unless form is 0 */
    int64_t minutes; /* from JD 2451545.0; ignored where form is 0 */
} lindenbrood_date;

/* An angle. */
typedef struct {
    int64_t status; /* 0, or the refusal */
    int64_t angle;  /* millionths of a degree */
} lindenbrood_angle_answer;

/* The elements of an orbit, on the ecliptic and equinox of J2000. */
typedef struct {
    int64_t status;         /* 0, or the refusal */
    int64_t a;              /* semi-major axis, 10^-8 au */
    int64_t e;              /* eccentricity, 10^-8 */
    int64_t inclination;    /* 10^-8 degree */
    int64_t mean_longitude; /* 10^-8 degree, not brought to one turn */
    int64_t perihelion;     /* longitude of perihelion, 10^-8 degree */
    int64_t node;           /* longitude of the ascending node, 10^-8 degree */
} lindenbrood_elements_answer;

/* A place or a vector in counts. */
typedef struct {
    int64_t status; /* 0, or the refusal */
    int64_t x;      /* 10^-7 au; of an RTN vector: R */
    int64_t y;      /* 10^-7 au; of an RTN vector: T */
    int64_t z;      /* 10^-7 au; of an RTN vector: N */
} lindenbrood_vector_answer;

/* A place in au. */
typedef struct {
    int64_t status; /* 0, or the refusal */
    double x;       /* au */
    double y;       /* au */
    double z;       /* au */
} lindenbrood_place_answer;

/* What a sheet call did. */
typedef struct {
    int64_t status; /* 0, or the refusal */
    int64_t good;   /* how many rows were written with status 0 */
} lindenbrood_sheet_answer;

/* What a marker found. */
typedef struct {
    int64_t status; /* 0, or the refusal */
    int64_t row;    /* the first wrong row, from 1; 0: none, or a refusal */
} lindenbrood_mark_answer;

/* What a search found. */
typedef struct {
    int64_t status;  /* 0, or the refusal */
    int64_t minutes; /* the date found, from JD 2451545.0; 0 with every refusal */
    int64_t looked;  /* its place in the span, from 1; the count with 12, else 0 */
} lindenbrood_viewing_answer;

/* The fields of a row that was read. */
typedef struct {
    int64_t status;     /* of the reading: 0, or 9 */
    int64_t row_status; /* of the row itself: 0 to 4 */
    int64_t body;       /* 1 to 9; in a refused row 0 */
    int64_t frame;      /* 1 to 5; in a refused row 0 */
    int64_t minutes;    /* from JD 2451545.0; in a refused row 0 */
    int64_t x;          /* 10^-7 au; in a refused row 0 */
    int64_t y;          /* 10^-7 au; in a refused row 0 */
    int64_t z;          /* 10^-7 au; in a refused row 0 */
} lindenbrood_row_answer;

/* ------------------------------------------------------------------------
 * A date made
 * ------------------------------------------------------------------------ */

/*
 * lindenbrood_julian, lindenbrood_minutes
 *
 * A date from a Julian date, and a date from whole minutes.
 *
 * Given:
 *   julian    Julian date, any double
 *   minutes   from JD 2451545.0, any number
 *
 * Returned: the date, with 0 in the member that its form does not name.
 *
 * Note: nothing is tested or rounded here: what is not finite or outside an
 * interval is refused by the call that takes the date.  Both stand in this
 * header and not in the library: from a language other than C and C++, fill
 * the struct.
 */
static inline lindenbrood_date lindenbrood_julian(double julian)
{
    lindenbrood_date date = {0, julian, 0};

    return date;
}

static inline lindenbrood_date lindenbrood_minutes(int64_t minutes)
{
    lindenbrood_date date = {1, 0.0, minutes};

    return date;
}

/* ------------------------------------------------------------------------
 * One row for the projector
 * ------------------------------------------------------------------------
 *
 * A row has 38 bytes, numbers big-endian and in two's complement:
 *
 *   bytes    field
 *    0 -  1  length, 36: the bytes that follow
 *    2       version, 1
 *    3       status, 0 to 4
 *    4       body
 *    5       frame
 *    6 - 13  minutes from JD 2451545.0
 *   14 - 21  x, 10^-7 au
 *   22 - 29  y, 10^-7 au
 *   30 - 37  z, 10^-7 au
 *
 * A refused row has its length, version and status, and 34 zero bytes.  A row
 * holds a place by Table 1 and names no table.
 */

/*
 * lindenbrood_row
 *
 * The place of a body on a date, written as one row into lent bytes.
 *
 * Given:
 *   date    a Julian date or minutes, see DATES
 *   body    1 to 9
 *   frame   1 to 5
 *   len     bytes lent, at least 38
 *
 * Lent:
 *   row     the first 38 bytes are overwritten; bytes after them stay
 *
 * Returned: the status.
 *   0           the row holds the place, with status 0
 *   8           len is under 38: no byte is written
 *   1, 2, 3, 4  a refused row with this status is written
 *   The first refusal that applies, in this order.
 *
 * Note: after any status but 8 nothing that the bytes held before is left in
 * the first 38.  After 8 they still hold what they held: do not draw them.
 */
int64_t lindenbrood_row(lindenbrood_date date, int64_t body, int64_t frame,
                        uint8_t *row, size_t len);

/*
 * lindenbrood_write_row
 *
 * A row written from its fields into lent bytes.
 *
 * Given:
 *   status     of the row, 0 to 4
 *   body       1 to 9; 0 in a refused row
 *   frame      1 to 5; 0 in a refused row
 *   minutes    in Table 1's interval; 0 in a refused row
 *   x, y, z    any numbers, 10^-7 au; 0 in a refused row
 *   len        bytes lent, at least 38
 *
 * Lent:
 *   row        the first 38 bytes are overwritten; bytes after them stay
 *
 * Returned: the status of the writing.
 *   0   the row is written, a refused one too
 *   8   len is under 38: no byte is written
 *   9   the fields are none that lindenbrood_read_row would take: no byte is
 *       written
 *   8 comes before 9.
 *
 * Note: lindenbrood_read_row gives back exactly what was written.
 */
int64_t lindenbrood_write_row(int64_t status, int64_t body, int64_t frame,
                              int64_t minutes, int64_t x, int64_t y, int64_t z,
                              uint8_t *row, size_t len);

/*
 * lindenbrood_read_row
 *
 * The fields of the row that stands in the first 38 bytes.
 *
 * Given:
 *   len     bytes lent
 *
 * Lent:
 *   row     is only read; bytes after the first 38 are not looked at
 *
 * Returned: the status of the reading, and the fields.
 *   0   the bytes are a row: length 36, version 1, and either status 0 with a
 *       known body and frame and minutes in Table 1's interval (any x, y, z),
 *       or status 1 to 4 with 34 zeros
 *   9   the bytes are no row, or len is under 38: all fields are 0
 *
 * Note: a refused row is a row: reading it answers status 0 with row_status 1
 * to 4.  Only where both status and row_status are 0 is there a place to draw.
 */
lindenbrood_row_answer lindenbrood_read_row(const uint8_t *row, size_t len);

/* ------------------------------------------------------------------------
 * A sheet of rows
 * ------------------------------------------------------------------------ */

/*
 * lindenbrood_sheet
 *
 * Rows for start, start + step, start + 2 step and so on, into lent bytes.
 *
 * Given:
 *   start   date of the first row: a Julian date or minutes, see DATES
 *   step    minutes, 1 to 1000000
 *   count   rows, 0 to 400
 *   body    1 to 9
 *   frame   1 to 5
 *   len     bytes lent, at least 38 * count
 *
 * Lent:
 *   rows    the first 38 * count bytes are overwritten; bytes after them stay
 *
 * Returned: the status, and how many of the rows have status 0.
 *   0    every row is written
 *   10   step or count is out of range: no byte is written, good is 0
 *   8    len is under 38 * count: no byte is written, good is 0
 *   10 comes before 8.
 *
 * Notes:
 *   Row k, from 0, is byte for byte the single row of its own date, so that a
 *   sheet may enter or leave Table 1's interval: rows whose date, body or frame
 *   is refused hold the refused row (status 1 to 4), and rows after them are
 *   still worked out.  The sheet's own status is 0 all the same: a sheet whose
 *   rows are all refused answers status 0 and good 0.
 *   The sums are exact and never wrap.  A Julian start becomes its minute
 *   first, and the steps are added to that.  With a Julian start that is not
 *   finite every row has status 1.
 *   Count 0 writes nothing and is answered with 0 and 0.
 */
lindenbrood_sheet_answer lindenbrood_sheet(lindenbrood_date start, int64_t step,
                                           int64_t count, int64_t body,
                                           int64_t frame, uint8_t *rows,
                                           size_t len);

/* ------------------------------------------------------------------------
 * A sheet marked
 * ------------------------------------------------------------------------
 *
 * Pupils who write an ephemeris program of their own hand in a sheet of our
 * rows, made with lindenbrood_write_row or byte by byte.  Each row is judged by
 * its own body, frame and minute: ours is the place that lindenbrood_counts has
 * for them.  So a sheet may mix bodies, frames and dates, in any order.
 *
 * A row is wrong where
 *
 *   its 38 bytes are no row (lindenbrood_read_row answers 9), or
 *   it is a refused row, with status 1 to 4, or
 *   its x, its y or its z is further from ours than is allowed.
 *
 * Off by exactly what is allowed is not wrong.
 */

/*
 * lindenbrood_mark
 *
 * The first wrong row of a sheet, if there is one.
 *
 * Given:
 *   len       bytes lent, at least 38 * count
 *   count     rows to be marked, 0 to 400
 *   allowed   how far x, y and z may each be off, 0 to 1000000 (10^-7 au)
 *
 * Lent:
 *   rows      is only read; bytes after the first 38 * count are not looked at
 *
 * Returned: the status, and the place of the first wrong row.
 *   0    row is the place of the first wrong row, counted from 1, and 0 exactly
 *        when no row is wrong: the sheet is good
 *   10   count or allowed is out of range: row is 0
 *   8    len is under 38 * count: row is 0
 *   10 comes before 8.
 *
 * Notes:
 *   A refusal has row 0 too and is not "good": look at the status first.
 *   The rows after a wrong one are not judged.  For the next wrong row mark the
 *   rest, rows + 38 * row with count - row, or mend the row and mark again.
 *   With 0 allowed a sheet is good exactly when every row has the 38 bytes that
 *   lindenbrood_row writes, with status 0, for that row's body, frame and
 *   minute.  A sheet that lindenbrood_sheet wrote with no refused row is good
 *   whatever is allowed.
 *   How much to allow: a program of the same steps in double precision was
 *   seen up to 37 units off for Mercury to Mars, 105 for Jupiter and 808 for
 *   Pluto.  So 100 is room enough up to Mars, and 1000 for all nine.
 *   The differences are exact, whatever numbers a row holds.
 *   Whether the rows are of the dates that the class was given is not marked.
 *   Count 0 is good.
 */
lindenbrood_mark_answer lindenbrood_mark(const uint8_t *rows, size_t len,
                                         int64_t count, int64_t allowed);

/* ------------------------------------------------------------------------
 * Places
 * ------------------------------------------------------------------------ */

/*
 * lindenbrood_place
 *
 * The place of a body on a date, in au.
 *
 * Given:
 *   date    a Julian date or minutes, see DATES
 *   body    1 to 9
 *   frame   1 to 5
 *
 * Returned: the status, and x, y, z in au.
 *   0            x, y, z are the counts below made doubles, each then divided
 *                once by 10000000
 *   1, 2, 3, 4   x, y, z are 0.0
 *   The first refusal that applies, in this order.
 */
lindenbrood_place_answer lindenbrood_place(lindenbrood_date date, int64_t body,
                                           int64_t frame);

/*
 * lindenbrood_counts
 *
 * The same place in counts of 10^-7 au.
 *
 * Given: as above.
 *
 * Returned: the status, and x, y, z in 10^-7 au.
 *   0            the place
 *   1, 2, 3, 4   x, y, z are 0
 *   The first refusal that applies, in this order.
 */
lindenbrood_vector_answer lindenbrood_counts(lindenbrood_date date, int64_t body,
                                             int64_t frame);

/*
 * lindenbrood_place_by_table
 *
 * The place of a body on a date by the table named, in au.
 *
 * Given:
 *   date    a Julian date or minutes, see DATES
 *   table   1 or 2, see TABLES
 *   body    1 to 9
 *   frame   1 to 5
 *
 * Returned: the status, and x, y, z in au.
 *   0                x, y, z are the counts below made doubles, each then
 *                    divided once by 10000000
 *   1, 11, 2, 3, 4   x, y, z are 0.0
 *   The first refusal that applies, in this order.
 *
 * Note: with table 1 this is lindenbrood_place.  In HEE and HEEQ the Earth's
 * place is by the table named too.
 */
lindenbrood_place_answer lindenbrood_place_by_table(lindenbrood_date date,
                                                    int64_t table, int64_t body,
                                                    int64_t frame);

/*
 * lindenbrood_counts_by_table
 *
 * The same place in counts of 10^-7 au.
 *
 * Given: as above.
 *
 * Returned: the status, and x, y, z in 10^-7 au.
 *   0                the place
 *   1, 11, 2, 3, 4   x, y, z are 0
 *   The first refusal that applies, in this order.
 *
 * Note: with table 1 this is lindenbrood_counts.
 */
lindenbrood_vector_answer lindenbrood_counts_by_table(lindenbrood_date date,
                                                      int64_t table, int64_t body,
                                                      int64_t frame);

/* ------------------------------------------------------------------------
 * Viewing nights
 * ------------------------------------------------------------------------
 *
 * A planet is best seen about its opposition, when the Earth passes between it
 * and the Sun.  Mercury and Venus pass between the Earth and the Sun instead,
 * at their inferior conjunction.  Either way planet and Earth lie in the same
 * direction from the Sun, so that one rule finds both.
 *
 * With (px, py) and (ex, ey) the HAE counts of the planet and of body 3 on a
 * date, by the same table, the date counts as such an event where
 *
 *   px ex + py ey is above 0, and
 *   px ey - py ex is 0, or has the sign opposite to that on the date before it
 *   in the span.  The first date has none before it, and 0 is opposite to
 *   nothing.
 *
 * All of it is in whole numbers, exact.  A search takes no frame and no bytes.
 */

/*
 * lindenbrood_viewing
 *
 * The first opposition of a planet, or inferior conjunction of Mercury or
 * Venus, among the dates start, start + step, start + 2 step and so on.
 *
 * Given:
 *   start   the span's first date: a Julian date or minutes, see DATES
 *   step    minutes, 1 to 1000000; 1440 for a day
 *   count   dates in the span, 1 to 4000
 *   body    1 to 9, but not 3
 *
 * Returned: the status, the date in minutes, and how many dates were looked at.
 *   0             minutes is the first date that counts, looked its place in
 *                 the span, from 1
 *   12            no date of the span counts: minutes is 0, looked is count
 *   10, 1, 2, 3   minutes and looked are 0.  2 is for a span whose first date
 *                 or last date, start + (count - 1) step, is outside Table 1's
 *                 interval
 *   The first refusal that applies, in this order: 10, 1, 2, 3, 12.
 *
 * Notes:
 *   Keep to a step of ten days (14400) or less, which is small enough for every
 *   body.  Where planet and Earth turn against each other by a quarter or more
 *   between two dates, an event may be jumped over, or one found where there is
 *   none.
 *   With a small step the date found is the first at the event or after it, so
 *   that the event lies between the date before and the date found.  For its
 *   minute, search again from the date before with smaller steps, down to 1.
 *   An event on the span's first date is found only where px ey - py ex is
 *   exactly 0, so begin a step before the first date that matters.  For the
 *   event after this one begin a step after the date found.
 *   A larger count, where it is accepted too, never changes a date found or its
 *   place.
 *   Minute 0 is also a date, noon on 1 January 2000: whether one was found is
 *   for the status to say.
 *   The sums are exact and never wrap.  A Julian start becomes its minute
 *   first, and the steps are added to that.
 */
lindenbrood_viewing_answer lindenbrood_viewing(lindenbrood_date start, int64_t step,
                                               int64_t count, int64_t body);

/*
 * lindenbrood_viewing_by_table
 *
 * The same search by the table named.
 *
 * Given:
 *   start   the span's first date: a Julian date or minutes, see DATES
 *   table   1 or 2, see TABLES
 *   step    minutes, 1 to 1000000
 *   count   dates in the span, 1 to 4000
 *   body    1 to 9, but not 3
 *
 * Returned: the status, the date in minutes, and how many dates were looked at.
 *   0                 minutes is the first date that counts, looked its place
 *                     in the span, from 1
 *   12                no date of the span counts: minutes is 0, looked is count
 *   10, 1, 11, 2, 3   minutes and looked are 0.  2 is for a span whose first or
 *                     last date is outside the named table's interval
 *   The first refusal that applies, in this order: 10, 1, 11, 2, 3, 12.
 *
 * Note: with table 1 this is lindenbrood_viewing, whose notes hold for both
 * tables.  Planet and Earth are both by the table named.
 */
lindenbrood_viewing_answer lindenbrood_viewing_by_table(lindenbrood_date start,
                                                        int64_t table, int64_t step,
                                                        int64_t count, int64_t body);

/* ------------------------------------------------------------------------
 * Vectors turned
 * ------------------------------------------------------------------------ */

/*
 * lindenbrood_turn
 *
 * A vector of one frame, as it is in another on a date.
 *
 * Given:
 *   date      a Julian date or minutes, see DATES; it is tested for every pair
 *             of frames, though only HEE and HEEQ move with it
 *   from, to  frames, 1 to 5
 *   x, y, z   the vector in frame `from`, each part within +-500000000
 *             (10^-7 au, or whatever unit the vector is counted in)
 *
 * Returned: the status, and the vector in frame `to`, in the unit given.
 *   0            the vector; a frame to itself leaves it unchanged
 *   1, 2, 4, 5   x, y, z are 0
 *   The first refusal that applies, in this order.
 *
 * Note: between two frames that are not HAE the vector goes by way of HAE.
 * Each turn ends at the nearest whole number, a half away from zero, so that
 * the opposite vector, -x, -y, -z, has the opposite answer or the same refusal.
 * There and back may differ by some units.  A part of the answer may be beyond
 * 500000000 and is then refused on the way back.
 */
lindenbrood_vector_answer lindenbrood_turn(lindenbrood_date date, int64_t from,
                                           int64_t to, int64_t x, int64_t y,
                                           int64_t z);

/*
 * lindenbrood_turn_by_table
 *
 * A vector of one frame, as it is in another on a date, with the Earth of HEE
 * and HEEQ by the table named.
 *
 * Given:
 *   date      a Julian date or minutes, see DATES
 *   table     1 or 2, see TABLES; date and table are tested for every pair of
 *             frames, though only HEE and HEEQ depend on them
 *   from, to  frames, 1 to 5
 *   x, y, z   the vector in frame `from`, each part within +-500000000
 *             (10^-7 au, or whatever unit the vector is counted in)
 *
 * Returned: the status, and the vector in frame `to`, in the unit given.
 *   0                the vector; a frame to itself leaves it unchanged
 *   1, 11, 2, 4, 5   x, y, z are 0
 *   The first refusal that applies, in this order.
 *
 * Note: with table 1 this is lindenbrood_turn, whose note holds for both tables.
 */
lindenbrood_vector_answer lindenbrood_turn_by_table(lindenbrood_date date,
                                                    int64_t table, int64_t from,
                                                    int64_t to, int64_t x,
                                                    int64_t y, int64_t z);

/*
 * lindenbrood_to_rtn, lindenbrood_from_rtn
 *
 * An HAE vector as radial, tangential and normal parts at a spacecraft, and
 * such parts as an HAE vector.  No date is needed.
 *
 * Given:
 *   rx, ry, rz  HAE place of the spacecraft, 10^-7 au, each within +-500000000
 *   x, y, z     the vector, each part within +-500000000: HAE for to_rtn;
 *               R, T, N for from_rtn
 *
 * Returned: the status, and the vector: R, T, N from to_rtn; HAE from from_rtn.
 *   0   the vector.  R points from the Sun to the spacecraft, T along the
 *       Sun's axis S times R, and N is R times T
 *   5   a part of the place or of the vector is out of range: zeros
 *   6   the place gives no direction (see the table of status numbers): zeros
 *   5 comes before 6.
 *
 * Note: the answer ends as a turn's does, see lindenbrood_turn: at the same
 * place the opposite vector has the opposite answer or the same refusal.
 */
lindenbrood_vector_answer lindenbrood_to_rtn(int64_t rx, int64_t ry, int64_t rz,
                                             int64_t x, int64_t y, int64_t z);
lindenbrood_vector_answer lindenbrood_from_rtn(int64_t rx, int64_t ry, int64_t rz,
                                               int64_t x, int64_t y, int64_t z);

/* ------------------------------------------------------------------------
 * Elements and anomalies
 * ------------------------------------------------------------------------ */

/*
 * lindenbrood_elements
 *
 * The six elements of a body on a date.
 *
 * Given:
 *   date    a Julian date or minutes, see DATES
 *   body    1 to 9
 *
 * Returned: the status, and the elements, each
 * x0 + floor(rate * m / 52596000) in hundred-millionths, m being the minute.
 *   0         the elements
 *   1, 2, 3   all six are 0
 *   The first refusal that applies, in this order.
 */
lindenbrood_elements_answer lindenbrood_elements(lindenbrood_date date, int64_t body);

/*
 * lindenbrood_elements_by_table
 *
 * The six elements of a body on a date by the table named.
 *
 * Given:
 *   date    a Julian date or minutes, see DATES
 *   table   1 or 2, see TABLES
 *   body    1 to 9
 *
 * Returned: the status, and the elements, each
 * x0 + floor(rate * m / 52596000) in hundred-millionths, m being the minute;
 * x0 and rate are those of Table 1, or of Table 2a.
 *   0             the elements
 *   1, 11, 2, 3   all six are 0
 *   The first refusal that applies, in this order.
 *
 * Note: with table 1 this is lindenbrood_elements.  The further terms of Table
 * 2b are in the mean anomaly and not in the elements.
 */
lindenbrood_elements_answer lindenbrood_elements_by_table(lindenbrood_date date,
                                                          int64_t table,
                                                          int64_t body);

/*
 * lindenbrood_mean_anomaly
 *
 * The mean anomaly of a body on a date.
 *
 * Given:
 *   date    a Julian date or minutes, see DATES
 *   body    1 to 9
 *
 * Returned: the status, and the angle in millionths of a degree.
 *   0         the mean anomaly, from -180000000 up to but without 180000000
 *   1, 2, 3   0
 *   The first refusal that applies, in this order.
 */
lindenbrood_angle_answer lindenbrood_mean_anomaly(lindenbrood_date date, int64_t body);

/*
 * lindenbrood_mean_anomaly_by_table
 *
 * The mean anomaly of a body on a date by the table named.
 *
 * Given:
 *   date    a Julian date or minutes, see DATES
 *   table   1 or 2, see TABLES
 *   body    1 to 9
 *
 * Returned: the status, and the angle in millionths of a degree.
 *   0             the mean anomaly, from -180000000 up to but without 180000000
 *   1, 11, 2, 3   0
 *   The first refusal that applies, in this order.
 *
 * Note: with table 1 this is lindenbrood_mean_anomaly.  By table 2 the terms
 * b T^2 + c cos(fT) + s sin(fT) of Table 2b are added for Jupiter to Neptune,
 * and b T^2 for Pluto, so that for these five bodies it is not just the mean
 * longitude minus the longitude of perihelion.
 */
lindenbrood_angle_answer lindenbrood_mean_anomaly_by_table(lindenbrood_date date,
                                                           int64_t table,
                                                           int64_t body);

/*
 * lindenbrood_eccentric_anomaly
 *
 * Kepler's equation solved: the eccentric anomaly of a mean anomaly.
 *
 * Given:
 *   e              eccentricity, 0 to 90000000 (10^-8)
 *   mean_anomaly   any angle, millionths of a degree; it is first brought to
 *                  one turn
 *
 * Returned: the status, and the angle in millionths of a degree.
 *   0   the whole number from -180000000 to 180000000 that leaves the least
 *       error |10^9 M - (10^9 E - e* sin E)|, where e* is
 *       floor(e * 57295780 / 10^8); the smaller of two that tie.  Its error is
 *       below 10^9, which is a millionth of a degree
 *   7   e is out of range: 0
 */
lindenbrood_angle_answer lindenbrood_eccentric_anomaly(int64_t e, int64_t mean_anomaly);

/*
 * lindenbrood_sine, lindenbrood_cosine
 *
 * Given:
 *   angle   any angle, millionths of a degree
 *
 * Returned: the sine or the cosine in units of 10^-9, from -1000000000 to
 * 1000000000, by a straight line between the entries of a table for every
 * tenth of a degree.  No angle is refused.
 *
 * Note: sin(180 degrees - t) = sin t and sin(-t) = -sin t hold exactly, and the
 * cosine of t is exactly the sine of t + 90 degrees.
 */
int64_t lindenbrood_sine(int64_t angle);
int64_t lindenbrood_cosine(int64_t angle);

#ifdef __cplusplus
}
#endif

#endif
