#!/usr/bin/env python3
# Counts, in the source of a commit, the places that docs/DESIGN-PASS.md speaks of: tools/count_forms.py COMMIT [list]
import collections
import re
import subprocess
import sys


def git(*words):
    return subprocess.run(["git", *words], capture_output=True, text=True, check=True).stdout


def sources(commit):
    """Each source file's text without its comments and without the table of sines."""
    names = git("ls-tree", "-r", "--name-only", commit, "crates").split("\n")
    for name in names:
        if re.search(r"/src/\w+\.rt$", name) and not name.endswith("/table.rt"):
            text = git("show", f"{commit}:{name}")
            yield name.split("/")[1], re.sub(r"^\s*//.*$", "", text, flags=re.M)


FUNCTION = re.compile(
    r"^(?P<indent> *)(?P<pub>pub(?:\(crate\))? )?(?:extern \"C\" )?fn (?P<name>\w+)(?:<[^(]*>)?\((?P<given>.*?)\)(?: -> (?P<answer>.*?))?"
    r"(?: \{|(?=\n *requires|\n *ensures)(?P<clauses>(?:(?!\n(?P=indent)\{\n).)*)\n(?P=indent)\{)\n(?P<body>.*?)\n(?P=indent)\}",
    re.M | re.S,
)


def functions(commit):
    for crate, text in sources(commit):
        for found in FUNCTION.finditer(text):
            yield crate, found


def places(commit):
    """For each point, what was found: a list of names."""
    found = collections.defaultdict(list)
    asked = collections.defaultdict(list)
    for crate, text in sources(commit):
        for name, variants in re.findall(r"^pub enum (\w+) \{(.*?)^\}", text, re.M | re.S):
            if re.search(r"^    (Refused\(|No[A-Z]\w*,$|NotFinite,$)", variants, re.M) and "(" in variants:
                found["1 own Option or Result"].append(f"{crate} {name}")
        for name, fields in re.findall(r"^(?:pub )?struct (\w+) \{(.*?)^\}", text, re.M | re.S):
            if re.search(r"^    (pub )?(status: i64|\w+: bool)", fields, re.M):
                found["1 status or flag beside values"].append(f"{crate} {name}")
        for name in re.findall(r"let (\w+) = \w+\.\1;", text):
            found["4 field copied by hand"].append(f"{crate} {name}")
        for kind, name in re.findall(r"^pub (struct|enum) (\w+)", text, re.M):
            if not re.search(r"#\[derive\(([^)]*)\)\]\npub " + kind + " " + name + r"\b", text):
                found["4 type without derives"].append(f"{crate} {name}")
            elif "Debug" not in re.search(r"#\[derive\(([^)]*)\)\]\npub " + kind + " " + name + r"\b", text)[1]:
                found["4 type without Debug and ="].append(f"{crate} {name}")
    for crate, f in functions(commit):
        name, given, clauses, body = f["name"], f["given"], f["clauses"] or "", f["body"]
        answer = (f["answer"] or "").strip()
        kinds = re.findall(r"\b(table|body|frame|from|to): i64", given)
        where = "1 kinds as numbers, C" if crate == "lindenbrood" else "1 kinds as numbers, public" if f["pub"] else "1 kinds as numbers, private"
        if kinds:
            found[where].append(f"{crate} {name}")
        if answer == "i64" and re.search(r"refusals::number|\.number\(\)", body) or name in ("row", "put_found") and answer == "i64":
            found["1 refusal as a number"].append(f"{crate} {name}")
        if answer == "usize" and re.search(r"return i;", body) and re.search(r"^    0$", body, re.M):
            found["1 place with 0 for none"].append(f"{crate} {name}")
        for _ in re.findall(r"^\s*while ", body, re.M):
            found["3 while loops"].append(f"{crate} {name}")
        if re.search(r"\b(is_from_to\(|are_same\()", body) and "are_same" in body:
            found["4 equality by a function"].append(f"{crate} {name}")
        if crate == "answers" and f["pub"] and name.endswith("_of") and re.search(r"C[A-Z]\w+|Date", answer):
            found["4 conversion by a function"].append(f"{crate} {name}")
        if name in ("as_coordinates", "number") and "match" in body + clauses or name == "as_coordinates":
            found["4 conversion by a function"].append(f"{crate} {name}")
        if re.search(r"^put_(byte|decimal|number|numbers|field)$", name) and crate == "listing_lines":
            found["4 printing by hand"].append(f"{crate} {name}")
        if re.search(r"\w+: &(?:mut )?\[u8\],\s*\w+: usize", given):
            found["6 buffer with a length or a place beside"].append(f"{crate} {name}")
        if re.search(r"\bfn\(|Box<dyn|back: bool", given):
            found["7 switch on what to run"].append(f"{crate} {name}")
        for clause in re.findall(r"requires(?: \w+)? \{ (.*?) \}\n", clauses + "\n"):
            asked[clause].append(f"{crate} {name}")
    for clause, names in asked.items():
        if len(names) >= 3:
            found[f"5 asked in three contracts or more: {clause}"] += names
    return found


def proofs(commit):
    """Proof files of functions, their lines, and the lines of lemma files."""
    names = [n for n in git("ls-tree", "-r", "--name-only", commit, "crates").split("\n") if "/proofs/" in n and n.endswith(".antt")]
    own = [n for n in names if re.search(r"/(Answers|Invariants|Proof)\.antt$", n) and not re.match(r"crates/\w+/proofs/Answers\.antt$", n)]
    lines = lambda some: sum(git("show", f"{commit}:{n}").count("\n") for n in some)
    return len(own), lines(own), lines([n for n in names if n not in own])


def main():
    commit = sys.argv[1]
    found = places(commit)
    for point in sorted(found):
        print(f"{len(found[point]):4} {point}")
        if len(sys.argv) > 2:
            print("     " + ", ".join(found[point]))
    files, lines, lemmas = proofs(commit)
    print(f"{files:4} 8 proof files of functions, {lines} lines; {lemmas} lines of lemmas")


main()
