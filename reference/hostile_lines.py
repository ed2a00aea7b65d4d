#!/usr/bin/env python3
"""Writes lines for the listing program: good, refused, and of every bad kind.

    python3 hostile_lines.py [COUNT] [SEED] > lines

The last line has no line end.  `exact.py listing < lines` shows what the
listing program must print for them.
"""

import random
import sys

sys.dont_write_bytecode = True      # leave no cache beside the sources

import cases

BAD_NUMBERS = (b"", b"-", b"--1", b"1-", b"+1", b"four", b"1.0", b"1e3", b"0x1",
               b"12345678901", b"-12345678901", b"00000000001", b"9" * 30,
               b"9223372036854775808", b"-9223372036854775809", b"1\0", b"\0", b"1_0",
               b"1,0", "١".encode(), "１".encode(), b"\xff", b"nan", b"\xe2\x88\x921")
ODD_NUMBERS = (b"-0", b"0000000001", b"-0000000003", b"9999999999", b"-9999999999", b"01")
BAD_GAPS = (b"", b"  ", b"\t", b" \t", b",", b"\0", b"\r", b"\xc2\xa0", b"\x0b", b"\x0c")
BAD_ENDS = (b"\r", b" ", b"\t", b"\0", b" 1", b".", b"\x1a")
LONG = 100_000                      # characters of the longest lines


def numbers(chance):
    """Minute, body and frame as printed numbers, mostly accepted ones."""
    minute = cases.some_minute(chance)
    if abs(minute) > 9_999_999_999 and chance.randrange(2):
        minute %= 10_000_000_000
    return [str(number).encode() for number in (
        minute, cases.some_body(chance), cases.some_frame(chance))]


def spoiled(chance, parts):
    """One thing changed that makes the parts no line, or an odd one."""
    kind = chance.randrange(6)
    at = chance.randrange(3)
    if kind == 0:
        parts[at] = chance.choice(BAD_NUMBERS)
    elif kind == 1:
        parts[at] = chance.choice(ODD_NUMBERS)
    elif kind == 2:
        return chance.choice(BAD_GAPS).join(parts)
    elif kind == 3:
        return b" ".join(parts) + chance.choice(BAD_ENDS)
    elif kind == 4:
        return b" " * chance.randrange(2) + b" ".join(parts[:at])
    else:
        return chance.randbytes(chance.randrange(30)).replace(b"\n", b"")
    return b" ".join(parts)


def long_lines():
    yield b"1" * LONG
    yield b"0" * LONG + b" 4 1"
    yield b"0 4 1" + b" " * LONG
    yield b"-" * LONG
    yield b"0 4 " + b"0" * LONG + b"1"


def line(chance):
    parts = numbers(chance)
    return b" ".join(parts) if chance.randrange(2) else spoiled(chance, parts)


def main(arguments):
    count = int(arguments[0]) if arguments else 100_000
    chance = random.Random(int(arguments[1]) if len(arguments) > 1 else 1)
    lines = list(long_lines())[:count]
    lines += [line(chance) for _ in range(count - len(lines))]
    chance.shuffle(lines)
    if lines and not lines[-1]:
        lines[-1] = b"0 4 1"        # an empty line without its end would be none
    sys.stdout.buffer.write(b"\n".join(lines))


if __name__ == "__main__":
    main(sys.argv[1:])
