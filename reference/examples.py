#!/usr/bin/env python3
"""Document 01's checked examples that have no star, by the exact program: makes host/examples.stdout."""
import exact as x


def vector(what, answer):
    status, *parts = answer
    print(f"{what}: status {status},", *parts)


def main():
    print(f"JD 2469808.0: status {x.date_status(2469808.0)}")
    for mean in (0, 1, -1, 12345678, 179999999, -180000000):
        status, anomaly = x.eccentric_anomaly_answer(0, mean)
        print(f"e 0, M {mean}: status {status}, E {anomaly}")
    vector("RTN at 0", x.to_rtn_answer((0, 0, 0), (10000000, 0, 0)))
    for part in (500000000, 500000001):
        vector(f"a part of {part}", x.turn_answer(0, 1, 1, (part, 0, 0)))


main()
