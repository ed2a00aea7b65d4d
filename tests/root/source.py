#!/usr/bin/env python3
"""Reads a function's source and that of everything it calls: no product, quotient or remainder.

    python3 source.py CRATES CRATE FUNCTION

CRATES is the folder of the crates.  One line is printed; exit status 1 where a
sign of one of the three is found, or a call whose source cannot be read.
"""

import pathlib
import re
import sys

COMMENT = re.compile(r"//[^\n]*")
PROMISE = re.compile(r"\b(?:requires|ensures)\s*(?:\w+\s*)?\{[^{}]*\}")     # with its name, if it has one
CALL = re.compile(r"(?<![.\w])((?:\w+::)*)(\w+)\s*\(")
METHOD = re.compile(r"\.\s*(\w+)\s*\(")
WORDS = {"if", "while", "match", "return", "in", "as"}   # may stand before "("


def body_of(crates, crate, name):
    """What stands between the braces of a function, or None."""
    path = crates / crate / "src" / "lib.rt"
    if not path.is_file():
        return None
    text = PROMISE.sub("", COMMENT.sub("", path.read_text(encoding="utf-8")))
    found = re.search(rf"\bfn\s+{re.escape(name)}\s*\(", text)
    if not found:
        return None
    start = text.index("{", found.end())
    depth = 0
    for at in range(start, len(text)):
        depth += {"{": 1, "}": -1}.get(text[at], 0)
        if depth == 0:
            return text[start:at + 1]
    return None


def complaints(crates, crate, name):
    """The functions that were read, and what is wrong with them."""
    wrong, read, open_ones = [], [], [(crate, name)]
    while open_ones:
        crate, name = one = open_ones.pop()
        if one in read:
            continue
        read.append(one)
        body = body_of(crates, crate, name)
        if body is None:
            wrong.append(f"{crate}::{name}: its source is not found")
            continue
        for line in body.splitlines():
            if re.search(r"[*/%]", line):
                wrong.append(f"{crate}::{name}: {line.strip()}")
        wrong += [f"{crate}::{name}: calls .{method}(), which is not read"
                  for method in METHOD.findall(body)]
        open_ones += [(path.rstrip(":") or crate, callee)
                      for path, callee in CALL.findall(body) if callee not in WORDS]
    return read, wrong


def main():
    if len(sys.argv) != 4:
        sys.exit(__doc__)
    read, wrong = complaints(pathlib.Path(sys.argv[1]), *sys.argv[2:])
    for line in wrong:
        print(line)
    if wrong:
        sys.exit(1)
    print(f"source: {len(read)} function read, no product, quotient or remainder"
          if len(read) == 1 else
          f"source: {len(read)} functions read, no product, quotient or remainder")


main()
