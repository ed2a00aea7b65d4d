#!/usr/bin/env python3
"""The sky of the Armada by the exact program: makes host/armada.stdout."""
import math

import exact as x

NOON = 2301285.0      # of 8 August 1588, the day of the battle off Gravelines
EYE = {"Mercury": 1, "Venus": 2, "Mars": 4, "Jupiter": 5, "Saturn": 6}


def longitude(x_, y_):
    return math.degrees(math.atan2(y_, x_)) % 360.0


def show(name, place, seen, degrees):
    status, *au = place
    assert status == 0
    print(f"{name} at", *(f"{part:.7f}" for part in au), f"au, HAE; {seen} at {degrees:.2f} degrees")


def main():
    earth = x.place_in_au(NOON, 3, 1, 2)
    print(f"8 August 1588, noon, JD {NOON:.1f}, by table 2")
    for name, body in EYE.items():
        place = x.place_in_au(NOON, body, 1, 2)
        show(name, place, "seen from the Earth", longitude(place[1] - earth[1], place[2] - earth[2]))
    show("Earth", earth, "the Sun seen from it", longitude(-earth[1], -earth[2]))
    print(f"the same day by table 1: status {x.place_answer(NOON, 3, 1, 1)[0]}")


main()
