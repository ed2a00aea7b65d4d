#!/usr/bin/env python3
"""The next viewing night of each planet by the exact program: makes host/viewing.stdout."""
from datetime import datetime, timedelta

import exact as x

NOON = 2461361.0      # of 16 November 2026, the day the search begins
DAY = 1440            # minutes
EVENTS = {body: "inferior conjunction" if body < x.EARTH else "opposition"
          for body in range(1, 10) if body != x.EARTH}


def calendar_day(minute):
    """The day's date in the Gregorian calendar; minute 0 is noon of 1 January 2000."""
    moment = datetime(2000, 1, 1, 12) + timedelta(minutes=minute)
    return moment.date().isoformat()


def main():
    start = x.minute_of_julian(NOON)
    assert calendar_day(start) == "2026-11-16"
    print("viewing nights by table 1, a day at a time from noon on 16 November 2026, "
          f"JD {NOON:.1f}")
    for body, event in EVENTS.items():
        status, minute, looked = x.viewing_answer(NOON, DAY, x.MOST_DATES, body, 1)
        assert status == 0
        print(f"{x.NAMES[body - 1]}: {event} by JD {x.EPOCH + minute / DAY:.1f} "
              f"({calendar_day(minute)}), {looked} dates looked at")
    status, _, looked = x.viewing_answer(NOON, DAY, x.MOST_DATES, x.EARTH, 1)
    print(f"Earth: status {status}, {looked} dates looked at")


main()
