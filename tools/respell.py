#!/usr/bin/env python3
"""Brings the repository's own definitions and lemmas to today's spelling: words in snake case, facts in upper camel case.

usage: python3 tools/respell.py        at the top of the repository, once, right after the kit's port.py

The names are those that crates/*/specs/*.antt and crates/*/proofs/*.antt declare. Functions of src/, exported C names, strings, inputs and
outputs keep theirs. It stops, and writes nothing, where two names would fall together.
"""
import glob
import re
import sys

# Names that a rule does not give: `first_of` is a tactic's name, and two facts of one proof were spelled as values.
SPECIAL = {"first_of": "first_picked"}
HERE = {
    "crates/dates/proofs/Fields.antt": {"of-bits": "of_bits_lem"},
    "crates/listing_lines/proofs/Long.antt": {"there": "There", "given": "Given"},
    # port.py had spelled these two lemmas as a definition that their file cites is now spelled.
    "crates/listing_lines/proofs/Back.antt": {"is_digit": "is_digit_lem"},
    "crates/listing_lines/proofs/Stream.antt": {"one_more": "one_more_lem"},
}
APART = {"is_digit", "one_more"}
DECLARED = re.compile(r"^\s*(?:abbrev |unfoldable |pub |ruleset )*([^\s(){}:,.«»]+)\s+:\s")
TOKEN = re.compile(r"[^\s(){}\[\],;.«»\"`|]+")
GENERATED = re.compile(r"(?:tie|goal)\.(?:Need-)?$")


def respelled(name):
    """The name with its words in snake case. A dash behind an operator stays, as in the library's `+ℤ-idr`."""
    operator = re.match(r"[^A-Za-z]+ℤ-", name)
    head = operator.group(0) if operator else ""
    rest = name[len(head):].replace("-", "_")
    if rest[:1].islower():
        rest = re.sub(r"(?<=[a-z0-9])([A-Z])(?![A-Z]*_|$)", lambda m: "_" + m.group(1).lower(), rest)
        rest = re.sub(r"(?<=[a-z0-9])([A-Z])(?=_|$)", lambda m: "_" + m.group(1).lower(), rest)
    return head + rest


def declared():
    names = set()
    for path in sorted(glob.glob("crates/*/specs/*.antt") + glob.glob("crates/*/proofs/*.antt")):
        with open(path, encoding="utf-8") as file:
            for line in file:
                found = DECLARED.match(line)
                if found:
                    names.add(found.group(1))
    return names


def table(names):
    turned = {n: SPECIAL.get(n, respelled(n)) for n in names}
    # A lemma that would have its definition's name gets `_lem`.
    others = {new for n, new in turned.items() if "-" not in n}
    turned = {n: new + "_lem" if "-" in n and new in others else new for n, new in turned.items()}
    back = {}
    for name, new in sorted(turned.items()):
        if new in back and new not in APART:
            sys.exit(f"respell: {back[new]} and {name} would both be {new}")
        back[new] = name
    return {n: new for n, new in turned.items() if n != new}


def turn(text, names):
    def one(found):
        word = found.group(0)
        if word not in names or GENERATED.search(text[: found.start()]):
            return word
        return names[word]

    return TOKEN.sub(one, text)


def turn_source(text, names):
    """In a source only clauses and comments hold such names: no name of Rust's is spelled so."""
    only = {n: new for n, new in names.items() if re.search(r"[a-z][A-Z]|-", n) or n in SPECIAL}
    return re.sub(r"[A-Za-z][\w-]*", lambda m: only.get(m.group(0), m.group(0)), text)


def turn_page(text, names):
    """In a page, what stands between backquotes."""
    return re.sub(r"`[^`\n]+`", lambda m: re.sub(r"[A-Za-z][\w-]*", lambda w: names.get(w.group(0), w.group(0)), m.group(0)), text)


def main():
    names = table(declared())
    pages = ["README.md", *glob.glob("docs/**/*.md", recursive=True)]
    kinds = [
        (glob.glob("crates/**/*.antt", recursive=True), turn),
        (glob.glob("crates/*/src/*.rt"), turn_source),
        (glob.glob("crates/*/must-fail/*.edit"), turn_source),
        (pages, turn_page),
    ]
    changed = 0
    for paths, how in kinds:
        for path in sorted(paths):
            with open(path, encoding="utf-8") as file:
                text = file.read()
            here = dict(names, **HERE.get(path, {}))
            new = how(text, here)
            if new != text:
                changed += 1
                with open(path, "w", encoding="utf-8") as file:
                    file.write(new)
    print(f"respell: {len(names)} names, {changed} files")


if __name__ == "__main__":
    main()
