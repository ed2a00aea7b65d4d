/* Sheets marked: each row by its own body, frame and minute, the first wrong one
 * named, refusals 10 and 8, no byte written and none read beyond those counted. */
#include <string.h>

#include "test.h"

enum { ROW = LINDENBROOD_ROW_BYTES, MOST = LINDENBROOD_MOST_ROWS, KNOWN = 9 };

typedef lindenbrood_mark_answer answer;
typedef lindenbrood_row_answer fields;

/* From reference/exact.py: every body and frame, both ends of the interval.  A row's
 * members: 0, its status, body, frame, minutes, x, y, z. */
static const fields known[KNOWN] = {
    {0, 0, 4, 1, 0, 13906663, -133909, -344612},
    {0, 0, 9, 5, -1, -254733665, 153338816, 54635324},
    {0, 0, 1, 2, -105189840, -2110243, 2139561, 1362213},
    {0, 0, 5, 4, 26298000, 50113373, 15477838, 341700},
    {0, 0, 2, 3, 14200560, 2949917, 6536655, -443152},
    {0, 0, 3, 1, 23, -1774459, 9671635, -3},
    {0, 0, 6, 5, -50000000, -40397441, -89391696, 9403472},
    {0, 0, 7, 2, 14200560, 86025310, 159921275, 68823294},
    {0, 0, 8, 4, 1440, -278198542, -115363953, 1273071},
};

/* Byte by byte: the first two of them, the second again with z one more, a refused
 * row, and the third with version 2.  They lie in memory that nobody may write, so that
 * a marker that writes, even what is there already, stops the tests. */
static const uint8_t kept[5 * ROW] = {
    0x00, 0x24, 0x01, 0x00, 0x04, 0x01, 0x00, 0x00, 0x00, 0x00, 0x00, 0x00, 0x00, 0x00,
    0x00, 0x00, 0x00, 0x00, 0x00, 0xd4, 0x32, 0xe7, 0xff, 0xff, 0xff, 0xff, 0xff, 0xfd,
    0xf4, 0xeb, 0xff, 0xff, 0xff, 0xff, 0xff, 0xfa, 0xbd, 0xdc,
    0x00, 0x24, 0x01, 0x00, 0x09, 0x05, 0xff, 0xff, 0xff, 0xff, 0xff, 0xff, 0xff, 0xff,
    0xff, 0xff, 0xff, 0xff, 0xf0, 0xd1, 0x12, 0x9f, 0x00, 0x00, 0x00, 0x00, 0x09, 0x23,
    0xc3, 0xc0, 0x00, 0x00, 0x00, 0x00, 0x03, 0x41, 0xab, 0x3c,
    0x00, 0x24, 0x01, 0x00, 0x09, 0x05, 0xff, 0xff, 0xff, 0xff, 0xff, 0xff, 0xff, 0xff,
    0xff, 0xff, 0xff, 0xff, 0xf0, 0xd1, 0x12, 0x9f, 0x00, 0x00, 0x00, 0x00, 0x09, 0x23,
    0xc3, 0xc0, 0x00, 0x00, 0x00, 0x00, 0x03, 0x41, 0xab, 0x3d,
    0x00, 0x24, 0x01, 0x03, 0x00, 0x00, 0x00, 0x00, 0x00, 0x00, 0x00, 0x00, 0x00, 0x00,
    0x00, 0x00, 0x00, 0x00, 0x00, 0x00, 0x00, 0x00, 0x00, 0x00, 0x00, 0x00, 0x00, 0x00,
    0x00, 0x00, 0x00, 0x00, 0x00, 0x00, 0x00, 0x00, 0x00, 0x00,
    0x00, 0x24, 0x02, 0x00, 0x01, 0x02, 0xff, 0xff, 0xff, 0xff, 0xf9, 0xba, 0xee, 0x30,
    0xff, 0xff, 0xff, 0xff, 0xff, 0xdf, 0xcc, 0xdd, 0x00, 0x00, 0x00, 0x00, 0x00, 0x20,
    0xa5, 0xa9, 0x00, 0x00, 0x00, 0x00, 0x00, 0x14, 0xc9, 0x25,
};

static const int64_t allowances[] = {0, 1, 100, 999999, 1000000};
static const size_t allowance_count = sizeof allowances / sizeof *allowances;

static size_t room_of(int64_t rows)
{
    return (size_t)rows * ROW;
}

/* Right rows, the known ones over and over. */
static void put_known(uint8_t *rows, int64_t count)
{
    for (int64_t k = 0; k < count; k++)
        row_bytes(&known[k % KNOWN], rows + room_of(k));
}

static void put_row(uint8_t *rows, int64_t place, const fields *row)
{
    row_bytes(row, rows + room_of(place - 1));
}

/* One sheet marked: the answer, and that no lent byte has changed. */
static void mark_at(int line, const uint8_t *rows, size_t len, int64_t count,
                    int64_t allowed, int64_t status, int64_t row)
{
    static uint8_t before[(MOST + 2) * ROW];

    if (len > 0)
        memcpy(before, rows, len);
    answer a = lindenbrood_mark(rows, len, count, allowed);
    check(a.status == status && a.row == row, "as wanted", __FILE__, line,
          "%" PRId64 " rows in %zu bytes, %" PRId64 " allowed: status %" PRId64 ", row %" PRId64
          ", wanted %" PRId64 " and %" PRId64, count, len, allowed, a.status, a.row, status, row);
    check(len == 0 || memcmp(before, rows, len) == 0, "only read", __FILE__, line,
          "%" PRId64 " rows in %zu bytes, %" PRId64 " allowed", count, len, allowed);
}

/* The same with a copy in just as many bytes, of each kind. */
static void mark_copies_at(int line, const uint8_t *rows, size_t len, int64_t count,
                           int64_t allowed, int64_t status, int64_t row)
{
    for (lent_kind kind = 0; kind < LENT_KINDS; kind++) {
        lent copy = lend(kind, len);

        if (len > 0)
            memcpy(copy.bytes, rows, len);
        mark_at(line, copy.bytes, copy.len, count, allowed, status, row);
        give_back(&copy);
    }
}

/* MARK and MARK_COPIES take rows, len, count and allowed, and the status and row wanted;
 * MARK_SHEET takes rows, count and allowed, and the row wanted. */
#define MARK(...) mark_at(__LINE__, __VA_ARGS__)
#define MARK_COPIES(...) mark_copies_at(__LINE__, __VA_ARGS__)
#define MARK_SHEET(rows, count, allowed, row) \
    MARK_COPIES((rows), room_of(count), (count), (allowed), 0, (row))

/* Where ours is a place there is room for any allowance on both sides of it, so that
 * no difference has to be taken. */
static bool is_off(int64_t theirs, int64_t ours, int64_t allowed)
{
    return theirs < ours - allowed || theirs > ours + allowed;
}

/* A row judged by the calls that read it and that place its body. */
static bool is_wrong(const uint8_t *row, int64_t allowed)
{
    fields f = lindenbrood_read_row(row, ROW);

    if (f.status != 0 || f.row_status != 0)
        return true;
    lindenbrood_vector_answer ours =
        lindenbrood_counts(lindenbrood_minutes(f.minutes), f.body, f.frame);

    return is_off(f.x, ours.x, allowed) || is_off(f.y, ours.y, allowed)
           || is_off(f.z, ours.z, allowed);
}

static int64_t first_wrong(const uint8_t *rows, int64_t count, int64_t allowed)
{
    for (int64_t k = 0; k < count; k++)
        if (is_wrong(rows + room_of(k), allowed))
            return k + 1;
    return 0;
}

/* One of x, y, z. */
static int64_t *part_of(fields *row, int part)
{
    int64_t *parts[] = {&row->x, &row->y, &row->z};

    return parts[part];
}

/* The rows kept, up to each of the wrong ones, with more bytes behind and without. */
static void read_only_memory(void)
{
    static const int64_t asked[][3] = {
        /* allowed, count, row */
        {0, 0, 0}, {0, 1, 0}, {0, 2, 0}, {0, 3, 3}, {0, 4, 3}, {0, 5, 3},
        {1, 3, 0}, {1, 4, 4}, {1, 5, 4}, {1000000, 3, 0}, {1000000, 5, 4}};

    for (size_t i = 0; i < sizeof asked / sizeof *asked; i++) {
        int64_t allowed = asked[i][0], count = asked[i][1], row = asked[i][2];

        MARK(kept, room_of(count), count, allowed, 0, row);
        MARK(kept, sizeof kept, count, allowed, 0, row);
    }
    MARK(kept + 3 * ROW, 2 * ROW, 2, 0, 0, 1);
    MARK(kept + 4 * ROW, ROW, 1, 0, 0, 1);
    MARK(kept, sizeof kept, 6, 0, 8, 0);
    MARK(kept, sizeof kept, 401, 0, 10, 0);
}

/* Every length up to one byte more than the rows, with no wrong row and with one at each
 * place: where the bytes are too few none is named.  What lies behind is not touched. */
static void lengths_of(const uint8_t *rows, int64_t count, int64_t wrong)
{
    size_t room = room_of(count);

    for (size_t len = 0; len <= room + 1; len++) {
        int64_t status = len < room ? 8 : 0, row = len < room ? 0 : wrong;
        lent more = lend(ON_HEAP, room + ROW);

        MARK_COPIES(rows, len, count, 0, status, row);
        memcpy(more.bytes, rows, len);
        MARK(more.bytes, len, count, 0, status, row);
        CHECK(untouched(&more, len), "bytes behind %zu lent ones", len);
        give_back(&more);
    }
}

static void lengths(void)
{
    for (int64_t count = 0; count <= 4; count++)
        for (int64_t wrong = 0; wrong <= count; wrong++) {
            uint8_t rows[5 * ROW];

            put_known(rows, 5);
            if (wrong > 0)
                refused_bytes(2, rows + room_of(wrong - 1));
            lengths_of(rows, count, wrong);
        }
}

/* The same around long sheets, the row behind those counted right or wrong. */
static void long_lengths(void)
{
    static const int around[] = {-39, -38, -37, -1, 0, 1, 37, 38};
    static uint8_t rows[(MOST + 1) * ROW];

    for (int64_t count = 398; count <= MOST; count++)
        for (size_t i = 0; i < sizeof around / sizeof *around; i++) {
            size_t len = room_of(count) + (size_t)around[i];
            int64_t status = around[i] < 0 ? 8 : 0;

            put_known(rows, MOST + 1);
            MARK_COPIES(rows, len, count, 0, status, 0);
            refused_bytes(4, rows + room_of(count));
            MARK_COPIES(rows, len, count, 0, status, 0);
        }
}

static void nothing_lent(void)
{
    static const int64_t counts[] = {0, 1, 400, 401, -1, INT64_MIN, INT64_MAX};

    for (size_t i = 0; i < sizeof counts / sizeof *counts; i++) {
        int64_t c = counts[i];

        MARK(NULL, 0, c, 0, c < 0 || c > 400 ? 10 : c > 0 ? 8 : 0, 0);
        MARK(NULL, 0, c, -1, 10, 0);
    }
}

/* 10 comes before 8. */
static int64_t refusal_of(size_t len, int64_t count, int64_t allowed)
{
    if (count < 0 || count > 400 || allowed < 0 || allowed > 1000000)
        return 10;
    return len < room_of(count) ? 8 : 0;
}

/* Hard integers as counts, as allowances and as both, in bytes enough and too few. */
static void limits(void)
{
    static const size_t lens[] = {0, 1, ROW - 1, ROW, 3 * ROW, MOST * ROW - 1, MOST * ROW,
                                  (MOST + 1) * ROW};
    static uint8_t rows[(MOST + 1) * ROW];

    put_known(rows, MOST + 1);
    for (size_t i = 0; i < hard_integer_count; i++)
        for (size_t l = 0; l < sizeof lens / sizeof *lens; l++) {
            int64_t h = hard_integers[i];
            const int64_t asked[][2] = {{h, 0}, {h, 1000000}, {h, 1000001}, {h, -1}, {h, h},
                                        {0, h}, {1, h}, {3, h}, {400, h}, {401, h}, {-1, h}};

            for (size_t k = 0; k < sizeof asked / sizeof *asked; k++) {
                int64_t count = asked[k][0], allowed = asked[k][1];

                MARK(rows, lens[l], count, allowed, refusal_of(lens[l], count, allowed), 0);
            }
        }
    CHECK(LINDENBROOD_MOST_ALLOWED == 1000000 && LINDENBROOD_MOST_ROWS == 400
              && LINDENBROOD_BAD_COUNT == 10 && LINDENBROOD_SHORT_BUFFER == 8, "names");
}

/* Refused calls with a wrong row in the bytes: none is named. */
static void refused_with_wrong_rows(void)
{
    static const int64_t asked[][2] = {{401, 0}, {-1, 0}, {INT64_MIN, 0}, {INT64_MAX, 0},
                                       {1, -1}, {1, 1000001}, {1, INT64_MIN}, {1, INT64_MAX},
                                       {401, 1000001}, {-1, -1}, {6, -1}, {401, -1}};

    for (size_t i = 0; i < sizeof asked / sizeof *asked; i++) {
        MARK_COPIES(kept, sizeof kept, asked[i][0], asked[i][1], 10, 0);
        MARK_COPIES(kept + 3 * ROW, 2 * ROW, asked[i][0], asked[i][1], 10, 0);
        MARK_COPIES(kept, 0, asked[i][0], asked[i][1], 10, 0);
    }
    MARK_COPIES(kept, sizeof kept, 6, 0, 8, 0);
    MARK_COPIES(kept + 3 * ROW, 2 * ROW, 3, 0, 8, 0);
}

/* Every known row at its place: each coordinate as far off as allowed is right, one
 * more is wrong, on either side. */
static void as_far_as_allowed(void)
{
    uint8_t rows[KNOWN * ROW];

    for (int i = 0; i < KNOWN; i++)
        for (int part = 0; part < 3; part++)
            for (size_t a = 0; a < allowance_count; a++)
                for (int sign = -1; sign <= 1; sign += 2)
                    for (int more = 0; more <= 1; more++) {
                        fields row = known[i];

                        *part_of(&row, part) += sign * (allowances[a] + more);
                        put_known(rows, KNOWN);
                        put_row(rows, i + 1, &row);
                        MARK_SHEET(rows, KNOWN, allowances[a], more == 0 ? 0 : i + 1);
                    }
}

/* Each coordinate has the whole allowance for itself: all three off by it are right. */
static void all_as_far_as_allowed(void)
{
    uint8_t rows[KNOWN * ROW];

    for (size_t a = 0; a < allowance_count; a++)
        for (int signs = 0; signs < 8; signs++) {
            for (int i = 0; i < KNOWN; i++) {
                fields row = known[i];

                for (int part = 0; part < 3; part++)
                    *part_of(&row, part) += signs >> part & 1 ? allowances[a] : -allowances[a];
                put_row(rows, i + 1, &row);
            }
            MARK_SHEET(rows, KNOWN, allowances[a], 0);
            if (allowances[a] > 0)
                MARK_SHEET(rows, KNOWN, allowances[a] - 1, 1);
        }
}

/* Coordinates at the ends of 64 bits, and those whose difference from ours is 2^63, which
 * no 64-bit number is, or a multiple of 2^32: all are far off. */
static void ends_of_64_bits(void)
{
    for (int i = 0; i < KNOWN; i++)
        for (int part = 0; part < 3; part++) {
            fields row = known[i];
            int64_t ours = *part_of(&row, part);
            int64_t across = ours < 0 ? INT64_MAX + (ours + 1) : INT64_MIN + ours;
            const int64_t numbers[] = {
                INT64_MIN, INT64_MIN + 1, INT64_MAX - 1, INT64_MAX, across,
                ours + 4294967296, ours - 4294967296, ours + INT64_C(9007199254740992)};

            for (size_t n = 0; n < sizeof numbers / sizeof *numbers; n++) {
                uint8_t rows[2 * ROW];

                *part_of(&row, part) = numbers[n];
                put_known(rows, 1);
                put_row(rows, 2, &row);
                MARK_SHEET(rows, 2, 0, 2);
                MARK_SHEET(rows, 2, 1000000, 2);
                MARK_SHEET(rows + ROW, 1, 1000000, 1);
            }
        }
}

/* Refused rows are wrong, though nothing in them is off: that with status 3 has the very
 * bytes that a row call writes for body 0 and frame 0 at minute 0. */
static void refused_rows(void)
{
    uint8_t rows[KNOWN * ROW], own[ROW], third[ROW];

    for (int64_t status = 1; status <= 4; status++)
        for (int64_t place = 1; place <= KNOWN; place++)
            for (size_t a = 0; a < allowance_count; a++) {
                put_known(rows, KNOWN);
                refused_bytes(status, rows + room_of(place - 1));
                MARK_SHEET(rows, KNOWN, allowances[a], place);
                MARK_SHEET(rows, place - 1, allowances[a], 0);
            }
    CHECK(lindenbrood_row(lindenbrood_minutes(0), 0, 0, own, ROW) == 3, "body 0");
    refused_bytes(3, third);
    CHECK(memcmp(own, third, ROW) == 0, "the refused row of body 0");
}

/* Every byte takes every value.  With 0 allowed all but the row's own are wrong; with
 * more a low byte of a number may be right. */
static void damaged(const fields *row)
{
    lent bytes = lend(WALLED, ROW);

    row_bytes(row, bytes.bytes);
    for (size_t at = 0; at < ROW; at++) {
        uint8_t own = bytes.bytes[at];

        for (int value = 0; value < 256; value++) {
            bytes.bytes[at] = (uint8_t)value;
            MARK(bytes.bytes, ROW, 1, 0, 0, value != own);
            MARK(bytes.bytes, ROW, 1, 1000000, 0, first_wrong(bytes.bytes, 1, 1000000));
        }
        bytes.bytes[at] = own;
    }
    give_back(&bytes);
}

/* A refused row stays wrong whatever byte is changed: its status may become another
 * refusal, and with status 0 there is no body 0. */
static void damaged_refused(void)
{
    for (size_t at = 0; at < ROW; at++)
        for (int value = 0; value < 256; value++) {
            uint8_t row[ROW];

            refused_bytes(2, row);
            row[at] = (uint8_t)value;
            MARK(row, ROW, 1, 1000000, 0, 1);
        }
}

/* What a row call writes is right with 0 allowed, and no other bytes are. */
static void own_rows(void)
{
    for (int i = 0; i < 3000; i++) {
        int64_t minute = chance_between(LINDENBROOD_FIRST_MINUTE, LINDENBROOD_LAST_MINUTE);
        int64_t body = chance_between(1, 9), frame = chance_between(1, 5);
        size_t at = 14 + chance() % 24;
        uint8_t row[ROW];

        CHECK(lindenbrood_row(lindenbrood_minutes(minute), body, frame, row, ROW) == 0,
              "minute %" PRId64, minute);
        MARK(row, ROW, 1, 0, 0, 0);
        row[at] ^= (uint8_t)(1u << chance() % 8);
        MARK(row, ROW, 1, 0, 0, 1);
    }
}

/* What a sheet call wrote is good whatever is allowed, up to its first refused row. */
static void own_sheets(void)
{
    static uint8_t rows[MOST * ROW];

    for (int i = 0; i < 300; i++) {
        int64_t end = i % 2 ? LINDENBROOD_FIRST_MINUTE : LINDENBROOD_LAST_MINUTE;
        int64_t step = chance_between(1, i % 3 ? 1000000 : 3);
        int64_t count = chance_between(0, i % 10 ? 30 : MOST), refused = 0;
        int64_t start = end - step * chance_between(0, count) + chance_between(-2, 2);
        int64_t body = chance_between(1, i % 20 ? 9 : 10), frame = chance_between(1, 5);
        lindenbrood_date from = lindenbrood_minutes(i % 5 ? start : 0);
        lindenbrood_sheet_answer made =
            lindenbrood_sheet(from, step, count, body, frame, rows, sizeof rows);

        CHECK(made.status == 0, "step %" PRId64 ", count %" PRId64, step, count);
        for (int64_t k = count; k > 0; k--)
            if (rows[room_of(k - 1) + 3] != 0)
                refused = k;
        CHECK((made.good == count) == (refused == 0), "%" PRId64 " good rows", made.good);
        for (size_t a = 0; a < allowance_count; a++)
            MARK(rows, sizeof rows, count, allowances[a], 0, refused);
    }
}

/* Each wrong kind by itself. */
static void spoil(uint8_t *row, int kind)
{
    fields f = lindenbrood_read_row(row, ROW);

    if (kind < 4) {
        refused_bytes(kind + 1, row);
    } else if (kind < 7) {
        *part_of(&f, kind - 4) += 1000001;
        row_bytes(&f, row);
    } else {
        row[kind - 7] ^= 0x80; /* length, version, status, body or frame: no row */
    }
}

enum { SPOILED_KINDS = 4 + 3 + 6 };

/* Of two wrong rows the first is named, of whatever kinds they are.  Once it is mended
 * the second is, as it is when the rest behind the first is marked. */
static void two_wrong_rows(void)
{
    uint8_t rows[KNOWN * ROW];

    for (int one = 1; one < KNOWN; one++)
        for (int two = one + 1; two <= KNOWN; two++)
            for (int kinds = 0; kinds < SPOILED_KINDS * SPOILED_KINDS; kinds++) {
                put_known(rows, KNOWN);
                spoil(rows + room_of(one - 1), kinds % SPOILED_KINDS);
                spoil(rows + room_of(two - 1), kinds / SPOILED_KINDS);
                MARK(rows, sizeof rows, KNOWN, 1000000, 0, one);
                MARK(rows + room_of(one), room_of(KNOWN - one), KNOWN - one, 1000000, 0,
                     two - one);
                put_row(rows, one, &known[one - 1]);
                MARK(rows, sizeof rows, KNOWN, 1000000, 0, two);
                MARK(rows, sizeof rows, two - 1, 1000000, 0, 0);
            }
}

/* Nothing but a row itself says by what it is judged: in any order the rows are right,
 * and the numbers of one under the names of another are wrong. */
static void each_by_its_own(void)
{
    uint8_t rows[KNOWN * ROW];

    for (int one = 0; one < KNOWN; one++)
        for (int two = 0; two < KNOWN; two++) {
            fields mixed = known[one];

            put_known(rows, KNOWN);
            put_row(rows, one + 1, &known[two]);
            put_row(rows, two + 1, &known[one]);
            MARK_SHEET(rows, KNOWN, 0, 0);
            put_known(rows, KNOWN);
            put_row(rows, one + 1, &known[two]); /* twice the same row */
            MARK_SHEET(rows, KNOWN, 0, 0);
            mixed.x = known[two].x;
            mixed.y = known[two].y;
            mixed.z = known[two].z;
            put_row(rows, one + 1, &mixed);
            MARK_SHEET(rows, KNOWN, 0, one == two ? 0 : one + 1);
            MARK_SHEET(rows, KNOWN, 1000000, one == two ? 0 : one + 1);
        }
}

/* The first, the last, and those about the places that fewer bits could count. */
static void long_sheet(void)
{
    static const int64_t places[] = {1, 2, 127, 128, 129, 255, 256, 257, 399, 400};
    static uint8_t rows[MOST * ROW];

    put_known(rows, MOST);
    MARK_SHEET(rows, MOST, 0, 0);
    for (size_t i = 0; i < sizeof places / sizeof *places; i++)
        for (int kind = 0; kind < SPOILED_KINDS; kind++) {
            put_known(rows, MOST);
            spoil(rows + room_of(places[i] - 1), kind);
            MARK_SHEET(rows, MOST, 1000000, places[i]);
            MARK_SHEET(rows, places[i] - 1, 0, 0);
            MARK_SHEET(rows, places[i], 0, places[i]);
        }
}

/* A right row, often a little off and at times spoiled. */
static void put_any(uint8_t *row)
{
    int64_t minute = chance_between(LINDENBROOD_FIRST_MINUTE, LINDENBROOD_LAST_MINUTE);
    int64_t near = chance_between(0, 300) * chance_between(0, 3);

    lindenbrood_row(lindenbrood_minutes(minute), chance_between(1, 9), chance_between(1, 5),
                    row, ROW);
    fields f = lindenbrood_read_row(row, ROW);
    for (int part = 0; part < 3; part++)
        *part_of(&f, part) += chance_between(-near, near);
    row_bytes(&f, row);
    if (chance() % 16 == 0)
        row[chance() % ROW] ^= (uint8_t)chance();
    if (chance() % 32 == 0)
        spoil(row, (int)(chance() % 4));
}

/* Beside a walk over the rows. */
static void any_sheet(void)
{
    static uint8_t rows[(MOST + 1) * ROW];

    for (int i = 0; i < 1500; i++) {
        int64_t count = chance_between(0, i % 50 ? 12 : MOST);
        int64_t allowed = i % 4 ? chance_between(0, 1000) : allowances[i / 4 % 5];

        for (int64_t k = 0; k <= count; k++)
            put_any(rows + room_of(k));
        MARK(rows, room_of(count + i % 2), count, allowed, 0, first_wrong(rows, count, allowed));
    }
}

void test_marking(void)
{
    read_only_memory();
    lengths();
    long_lengths();
    nothing_lent();
    limits();
    refused_with_wrong_rows();
    as_far_as_allowed();
    all_as_far_as_allowed();
    ends_of_64_bits();
    refused_rows();
    damaged(&known[0]);
    damaged(&known[1]);
    damaged_refused();
    own_rows();
    own_sheets();
    two_wrong_rows();
    each_by_its_own();
    long_sheet();
    any_sheet();
}
