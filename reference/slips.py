#!/usr/bin/env python3
"""What wrong formulas would look like beside ERFA's eraPlan94.

    python3 slips.py [DATES]

Each slip is put into exact.py's steps in turn.  A line shows the greatest
angle from eraPlan94 at the Sun for bodies 1 to 8, in seconds of arc; the first
line has no slip.  A slip that stayed near the first line could hide.
"""

import sys
import tempfile

sys.dont_write_bytecode = True      # leave no cache beside the sources

import distance
import exact as x

RIGHT = {name: getattr(x, name) for name in (
    "mean_anomaly", "argument_of_perihelion", "coefficients", "e_star",
    "place_in_orbit")}


def sign_changed(row, column):
    """(8-34) with the sign of one coefficient turned."""
    def slip(orbit):
        rows = [list(pair) for pair in RIGHT["coefficients"](orbit)]
        rows[row][column] *= -1
        return rows
    return slip


def centre_at_e(orbit, mean):
    """Step 4 with e where 10e belongs."""
    anomaly = x.best_eccentric_anomaly(orbit.e, mean)
    along = x.floor(orbit.a * (x.cosine(anomaly) - orbit.e), 10**10)
    return along, RIGHT["place_in_orbit"](orbit, mean)[1]


def turned_mean(orbit, extra):
    return x.one_turn(x.floor(orbit.perihelion - orbit.mean_longitude + extra, 100))


SLIPS = {
    "no slip": {},
    "M from perihelion minus L": {"mean_anomaly": turned_mean},
    "node not subtracted": {
        "argument_of_perihelion": lambda orbit: x.floor(orbit.perihelion, 100)},
    "e* without 57.29578": {"e_star": lambda e: x.floor(e, 100)},
    "e for 10e in step 4": {"place_in_orbit": centre_at_e},
    "sign of x' in x": {"coefficients": sign_changed(0, 0)},
    "sign of y' in x": {"coefficients": sign_changed(0, 1)},
    "sign of x' in y": {"coefficients": sign_changed(1, 0)},
    "sign of y' in y": {"coefficients": sign_changed(1, 1)},
    "sign of x' in z": {"coefficients": sign_changed(2, 0)},
    "sign of y' in z": {"coefficients": sign_changed(2, 1)},
    "inclination dropped": {
        "coefficients": lambda orbit: RIGHT["coefficients"](
            orbit._replace(inclination=0))},
}


def main(arguments):
    minutes = distance.spread_minutes(int(arguments[0]) if arguments else 200)
    with tempfile.TemporaryDirectory() as folder:
        library = distance.build(folder, "plan94", "-lerfa")
        place = distance.place_function(library, "plan94_place")
        for name, changed in SLIPS.items():
            for part, function in {**RIGHT, **changed}.items():
                setattr(x, part, function)
            angles = [distance.greatest(
                distance.distances(place, body, x.HAE, minutes))[1]
                for body in range(1, 9)]
            print(f"{name:26}" + "".join(f"{angle:9.0f}" for angle in angles))


if __name__ == "__main__":
    main(sys.argv[1:])
