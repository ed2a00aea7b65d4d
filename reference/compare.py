#!/usr/bin/env python3
"""Compares the project's C interface with exact.py, answer by answer.

    python3 compare.py LIB WHAT [COUNT] [SEED]

LIB is the shared library; WHAT is one of sines, solver, dates, elements,
places, turns, rtn, rows, sheets, roundtrip, tables_elements, tables_places,
tables_turns, viewing, opposites, halves, marking, or all.  COUNT is the number
of cases (rtn: that many there and that many back; tables_...: that many for each
table, beside the edges; viewing: that many searches beside the edges, the hits
among them asked for again with other counts; opposites: that many vectors
between frames and a fifth of it by RTN each way, beside the edges; halves: that
many vectors; both with the opposite of each vector; marking: that many sheets
beside the edges, those with a wrong row marked again in parts), SEED the start
of chance.  One line is printed for each comparison, and the first few
differences.
Exit status: 1 if anything differs, else 2 if anything was skipped, else 0.
"""

import itertools
import random
import struct
import sys
from collections import Counter

sys.dont_write_bytecode = True      # leave no cache beside the sources

import cases
import exact as x
from library import Lent, Library, Missing

SHOWN = 5                           # differences shown of each comparison


class Tally:
    """What one comparison has seen so far."""

    def __init__(self, name):
        self.name, self.compared, self.differences = name, 0, 0

    def check(self, given, got, wanted):
        self.compared += 1
        if got != wanted:
            self.differences += 1
            if self.differences <= SHOWN:
                print(f"{self.name}: {given}: got {got}, wanted {wanted}")

    def report(self):
        print(f"{self.name}: {self.compared} compared, "
              f"{self.differences} differences", flush=True)


def chosen(source, count):
    """The first count cases of an endless source."""
    return itertools.islice(source, count)


def endless(chance, *makers):
    """Tuples of one random input from each maker, without end."""
    while True:
        yield tuple(make(chance) for make in makers)


def compare_sines(library, tally, count, chance):
    sine, cosine = library.call("sine"), library.call("cosine")
    edges = ((angle,) for angle in cases.M_EDGES)
    source = itertools.chain(edges, endless(chance, cases.some_angle))
    for angle, in chosen(source, count):
        tally.check(angle, (sine(angle), cosine(angle)),
                    (x.sine(angle), x.cosine(angle)))


def compare_solver(library, tally, count, chance):
    solve = library.call("eccentric_anomaly")
    for e, mean in chosen(cases.solver_cases(chance), count):
        tally.check((e, mean), solve(e, mean), x.eccentric_anomaly_answer(e, mean))


def compare_dates(library, tally, count, chance):
    """Mercury's mean longitude differs from minute to minute: it shows which."""
    elements = library.dated("elements")
    edges = ((julian,) for julian in cases.JULIAN_EDGES)
    source = itertools.chain(edges, endless(chance, cases.some_julian))
    for julian, in chosen(source, count):
        tally.check(julian.hex(), elements(julian, 1), x.elements_answer(julian, 1))


def compare_elements(library, tally, count, chance):
    elements, mean = library.dated("elements"), library.dated("mean_anomaly")
    source = endless(chance, cases.some_date, cases.some_body)
    for date, body in chosen(source, count):
        tally.check((date, body), (elements(date, body), mean(date, body)),
                    (x.elements_answer(date, body), x.mean_anomaly_answer(date, body)))


def bits(answer):
    """A status and three doubles as bytes, so that -0.0 is not taken for 0.0."""
    return struct.pack("<q3d", *answer).hex()


def compare_places(library, tally, count, chance):
    counts, place = library.dated("counts"), library.dated("place")
    edges = itertools.product((x.FIRST_MINUTE, 0, x.LAST_MINUTE), range(11), range(7))
    source = itertools.chain(edges, endless(
        chance, cases.some_date, cases.some_body, cases.some_frame))
    for date, body, frame in chosen(source, count):
        tally.check((date, body, frame),
                    (counts(date, body, frame), bits(place(date, body, frame))),
                    (x.place_answer(date, body, frame),
                     bits(x.place_in_au(date, body, frame))))


def turn_edges():
    """Every pair of frames with parts at the limit and one beyond, every date."""
    dates = (x.FIRST_MINUTE, x.LAST_MINUTE, x.LAST_MINUTE + 1, float("nan"))
    limit = x.PART_LIMIT
    vectors = ((limit, -limit, limit), (-limit, limit, -limit), (limit + 1, 0, 0),
               (0, -limit - 1, 0), (0, 0, cases.LEAST), (0, 0, 0), (1, -1, 1))
    return itertools.product(dates, range(7), range(7), vectors)


def compare_turns(library, tally, count, chance):
    turn = library.dated("turn")
    source = itertools.chain(turn_edges(), endless(
        chance, cases.some_date, cases.some_frame, cases.some_frame, cases.some_vector))
    for date, source_frame, target, vector in chosen(source, count):
        tally.check((date, source_frame, target, vector),
                    turn(date, source_frame, target, *vector),
                    x.turn_answer(date, source_frame, target, vector))


def rtn_edges():
    """Places and vectors at the limits, r = 0, and the axis itself."""
    limit = x.PART_LIMIT
    axis = tuple(part // 2 for part in x.SOLAR_AXIS)
    places = ((0, 0, 0), (10**7, 0, 0), (0, 10**5, 0), (0, 99_999, 0), axis,
              (limit, limit, limit), (limit + 1, 0, 0), (-limit - 1, 0, 0))
    vectors = ((10**7, 0, 0), (limit, -limit, limit), (0, 0, limit + 1), (0, 0, 0))
    return itertools.product(places, vectors)


def rtn_ways(library):
    """The library's call and exact.py's for the way there, and for the way back."""
    return ((library.call("to_rtn"), x.to_rtn_answer),
            (library.call("from_rtn"), x.from_rtn_answer))


def compare_rtn(library, tally, count, chance):
    ways = rtn_ways(library)
    source = itertools.chain(rtn_edges(), endless(
        chance, cases.some_place, cases.some_vector))
    for place, vector in chosen(source, count):
        for call, wanted in ways:
            tally.check((wanted.__name__, place, vector), call(*place, *vector),
                        wanted(place, vector))


def check_writing(tally, given, call, wanted, content, chance):
    """One call that writes into lent bytes: its answer, and every byte after it."""
    lent, expected = Lent(content, chance), bytearray(content)
    answer = wanted(expected)
    got = call(*lent.arguments())
    same = lent.matches(expected)
    tally.check(given + (len(content),),
                (got, "bytes as wanted" if same else bytes(lent.array).hex()),
                (answer, "bytes as wanted" if same else expected.hex()))


def compare_rows(library, tally, count, chance):
    """In turn: a row from fields, bytes read, a row for a date, bytes read."""
    write, read = library.call("write_row"), library.call("read_row")
    row = library.dated("row")
    for number in range(count):
        if number % 4 == 0:
            fields = cases.some_fields(chance)
            check_writing(tally, ("write_row", *fields),
                          lambda *lent: write(*fields, *lent),
                          lambda buffer: x.write_row(fields, buffer),
                          cases.some_buffer(chance), chance)
        elif number % 4 == 2:
            asked = tuple(make(chance) for make in (
                cases.some_date, cases.some_body, cases.some_frame))
            check_writing(tally, ("row", *asked), lambda *lent: row(*asked, *lent),
                          lambda buffer: x.write_row_of_date(*asked, buffer),
                          cases.some_buffer(chance), chance)
        else:
            content = cases.some_bytes_of_row(chance)
            lent = Lent(content, chance)
            tally.check(("read_row", content.hex()), read(*lent.arguments()),
                        x.read_row(content))


def compare_sheets(library, tally, count, chance):
    sheet = library.dated("sheet")
    for _ in range(count):
        *asked, content = cases.some_sheet(chance)
        check_writing(tally, ("sheet", *asked), lambda *lent: sheet(*asked, *lent),
                      lambda buffer: x.write_sheet(*asked, buffer), content, chance)


def there_and_back(minute, frame, vector):
    """HAE to the frame and back, or None where a call is refused."""
    status, *turned = x.turn_answer(minute, x.HAE, frame, vector)
    if status or not x.parts_in_limit(*turned):
        return None, turned
    return x.turn_answer(minute, frame, x.HAE, turned)[1:], turned


def compare_roundtrip(library, tally, count, chance):
    """Also prints the greatest difference of each coordinate for each frame."""
    turn = library.dated("turn")
    greatest = {frame: [0, 0, 0] for frame in range(2, 6)}
    for _ in range(count):
        minute = chance.randint(x.FIRST_MINUTE, x.LAST_MINUTE)
        vector = tuple(chance.randint(-x.PART_LIMIT, x.PART_LIMIT) for _ in range(3))
        for frame, most in greatest.items():
            back, turned = there_and_back(minute, frame, vector)
            if back is None:
                continue
            tally.check((minute, frame, vector),
                        (turn(minute, x.HAE, frame, *vector),
                         turn(minute, frame, x.HAE, *turned)),
                        ((0, *turned), (0, *back)))
            most[:] = [max(a, abs(b - v)) for a, b, v in zip(most, back, vector)]
    for frame, most in greatest.items():
        print(f"roundtrip: HAE to {x.FRAME_NAMES[frame]} and back, greatest "
              f"difference in x, y, z: {most[0]} {most[1]} {most[2]}")


def compare_tables_elements(library, tally, count, chance):
    """02, Item 1: elements and mean anomaly by a named table."""
    elements = library.dated("elements_by_table")
    mean = library.dated("mean_anomaly_by_table")
    edges = itertools.product(cases.TABLE_DATES, cases.TABLES_TRIED, range(11))
    source = cases.cases_by_table(chance, count, cases.some_body)
    for date, table, body in itertools.chain(edges, source):
        tally.check((date, table, body),
                    (elements(date, table, body), mean(date, table, body)),
                    (x.elements_answer(date, body, table),
                     x.mean_anomaly_answer(date, body, table)))


def compare_tables_places(library, tally, count, chance):
    """02, Item 1: places by a named table, counts and doubles bit by bit."""
    counts, place = library.dated("counts_by_table"), library.dated("place_by_table")
    edges = itertools.product(cases.TABLE_DATES, cases.TABLES_TRIED, range(11), range(7))
    source = cases.cases_by_table(chance, count, cases.some_body, cases.some_frame)
    for date, table, body, frame in itertools.chain(edges, source):
        asked = date, table, body, frame
        tally.check(asked, (counts(*asked), bits(place(*asked))),
                    (x.place_answer(date, body, frame, table),
                     bits(x.place_in_au(date, body, frame, table))))


def table_turn_edges():
    """Every pair of frames by every table tried, at the ends and beyond them."""
    limit = x.PART_LIMIT
    vectors = (limit, -limit, limit), (-limit, limit, -limit), (0, limit + 1, 0)
    dates = (*cases.END_MINUTES, *cases.NOT_FINITE)
    return itertools.product(dates, cases.TABLES_TRIED, range(7), range(7), vectors)


def compare_tables_turns(library, tally, count, chance):
    """02, Item 1: the Earth of a turn comes from the named table."""
    turn = library.dated("turn_by_table")
    source = cases.cases_by_table(chance, count, cases.some_frame, cases.some_frame,
                                  cases.some_vector)
    for date, table, source_frame, target, vector in itertools.chain(
            table_turn_edges(), source):
        tally.check((date, table, source_frame, target, vector),
                    turn(date, table, source_frame, target, *vector),
                    x.turn_answer(date, source_frame, target, vector, table))


def check_search(tally, plain, by_table, search):
    """One search by the call that it means; the exact program's answer."""
    start, table, *asked = search
    got = plain(start, *asked) if table is None else by_table(start, table, *asked)
    wanted = x.viewing_answer(start, *asked, cases.table_of(search))
    tally.check(tuple(search), got, wanted)
    return wanted


def compare_viewing(library, tally, count, chance):
    """02, Item 3.  Also prints how often each status came up beside the edges."""
    calls = library.dated("viewing"), library.dated("viewing_by_table")
    for search in itertools.chain(cases.search_edges(), cases.span_edges()):
        check_search(tally, *calls, search)
    statuses = Counter()
    for _ in range(count):
        search = cases.some_search(chance)
        status, _, place = check_search(tally, *calls, search)
        statuses[status] += 1
        again = cases.other_counts(chance, search, place) if status == 0 else ()
        statuses.update(check_search(tally, *calls, other)[0] for other in again)
    print("viewing: beside the edges", ", ".join(
        f"status {status} {times} times" for status, times in sorted(statuses.items())))


def check_opposites(tally, given, call, wanted, vector):
    """A vector and its opposite: as exact.py has both, and opposites by themselves."""
    other = cases.opposite(vector)
    got, got_other = call(*vector), call(*other)
    are_opposites = got_other == (got[0], *cases.opposite(got[1:]))
    tally.check((*given, vector),
                (got, got_other, "opposites" if are_opposites else "no opposites"),
                (wanted(vector), wanted(other), "opposites"))


def check_opposites_by_rtn(tally, way, place, vector):
    call, wanted = way
    check_opposites(tally, (wanted.__name__, place), lambda *parts: call(*place, *parts),
                    lambda parts: wanted(place, parts), vector)


def check_opposites_by_turn(tally, turn, date, table, source, target, vector):
    check_opposites(tally, (date, table, source, target),
                    lambda *parts: turn(date, table, source, target, *parts),
                    lambda parts: x.turn_answer(date, source, target, parts, table), vector)


def compare_opposites(library, tally, count, chance):
    """02, Item 4: opposite vectors turn into opposites, and are refused alike."""
    turn, ways = library.dated("turn_by_table"), rtn_ways(library)
    chances = (cases.some_turn(chance) for _ in range(count))
    for asked in itertools.chain(cases.opposite_edges(), chances):
        check_opposites_by_turn(tally, turn, *asked)
    chances = endless(chance, cases.some_place, cases.some_two_sided_vector)
    for place, vector in itertools.chain(rtn_edges(), chosen(chances, count // 5)):
        for way in ways:
            check_opposites_by_rtn(tally, way, place, vector)


def compare_halves(library, tally, count, chance):
    """02, Item 4, where the rule for a half decides.  Also prints how many halves it met.

    Places on the dates known for step 5 come first.  Of the vectors one in four goes
    by RTN.  Their opposites are compared too and not counted: they have as many
    halves, of the other sign.
    """
    turn, ways = library.dated("turn_by_table"), rtn_ways(library)
    counts = library.dated("counts_by_table")
    for (minute, table, body), frame in itertools.product(cases.HALF_PLACES, range(1, 6)):
        tally.check((minute, table, body, frame), counts(minute, table, body, frame),
                    x.place_answer(minute, body, frame, table))
    met = Counter({"step 5": len(cases.HALF_PLACES)})
    for number in range(count):
        if number % 4 == 0:
            back, place, vector = cases.some_half_by_rtn(chance)
            check_opposites_by_rtn(tally, ways[back], place, vector)
            met.update(dict(cases.halves_by_rtn(back, place, vector)))
        else:
            asked = cases.some_half_turn(chance)
            check_opposites_by_turn(tally, turn, *asked)
            met.update(dict(cases.halves_on_the_way(*asked)))
    print(f"halves: {met.total()} sums of exactly half a unit met,", ", ".join(
        f"{name} {times}" for name, times in sorted(met.items())))


def check_marking(tally, mark, handed, chance):
    """One sheet marked, of which no byte may change; the exact program's answer."""
    lent = Lent(handed.content, chance)
    wanted = x.mark_answer(handed.content, handed.count, handed.allowed)
    got = mark(*lent.arguments(), handed.count, handed.allowed)
    changed = "no byte changed" if lent.matches(handed.content) else "bytes changed"
    tally.check((len(handed.content), *handed[1:]), (got, changed),
                (wanted, "no byte changed"))
    return wanted


def compare_marking(library, tally, count, chance):
    """02, Item 5.  Also prints what had been done to the first wrong rows, beside the edges.

    Up to the row before its first wrong one a sheet must be good.
    """
    mark, answers, wrong = library.call("mark"), Counter(), Counter()
    for handed in cases.marking_edges():
        check_marking(tally, mark, handed, chance)
    for _ in range(count):
        handed = cases.some_handed_in(chance)
        status, place = check_marking(tally, mark, handed, chance)
        if place == 0:
            answers[f"refused with {status}" if status else "good"] += 1
            continue
        wrong[handed.done[place]] += 1
        before, *others = cases.marked_again(handed, place)
        tally.check((*before[1:], "the rows before it"),
                    check_marking(tally, mark, before, chance), (0, 0))
        for other in others:
            check_marking(tally, mark, other, chance)
    good, spoiled = (", ".join(f"{what} {times}" for what, times in sorted(met.items()))
                     for met in (answers, wrong))
    print(f"marking: beside the edges {good}; first wrong: {spoiled}")


# name: (comparison, its usual number of cases)
COMPARISONS = {
    "sines": (compare_sines, 200_000),
    "solver": (compare_solver, 1_000_000),
    "dates": (compare_dates, 300_000),
    "elements": (compare_elements, 20_000),
    "places": (compare_places, 20_000),
    "turns": (compare_turns, 50_000),
    "rtn": (compare_rtn, 20_000),
    "rows": (compare_rows, 200_000),
    "sheets": (compare_sheets, 2_000),
    "roundtrip": (compare_roundtrip, 100_000),
    "tables_elements": (compare_tables_elements, 20_000),
    "tables_places": (compare_tables_places, 20_000),
    "tables_turns": (compare_tables_turns, 20_000),
    "viewing": (compare_viewing, 1_000),
    "opposites": (compare_opposites, 50_000),
    "halves": (compare_halves, 20_000),
    "marking": (compare_marking, 2_000),
}


def run(library, name, count, seed):
    """One comparison: 0 if all is equal, 1 if not, 2 if it was skipped."""
    compare, usual = COMPARISONS[name]
    tally = Tally(name)
    try:
        compare(library, tally, count or usual, random.Random(seed))
    except Missing as missing:
        print(f"{name}: skipped, the library has no {missing}", flush=True)
        return 2
    tally.report()
    return 1 if tally.differences else 0


def main(arguments):
    known = [*COMPARISONS, "all"]
    if not 2 <= len(arguments) <= 4 or arguments[1] not in known:
        print(f"usage: compare.py LIB {'|'.join(known)} [COUNT] [SEED]", file=sys.stderr)
        return 2
    count = int(arguments[2]) if len(arguments) > 2 else None
    seed = int(arguments[3]) if len(arguments) > 3 else 1
    names = list(COMPARISONS) if arguments[1] == "all" else [arguments[1]]
    library = Library(arguments[0])
    results = {run(library, name, count, seed) for name in names}
    return 1 if 1 in results else max(results)


if __name__ == "__main__":
    sys.exit(main(sys.argv[1:]))
