#!/usr/bin/env python3
"""Spells this repository's own definitions and lemmas as today's Rattle does: words in snake case.

usage: python3 tools/port/names.py [FOLDER]

FOLDER is a checkout right after the kit's port.py; the default is the one above this script. Each name that a file of specs/ or proofs/
declares and that has a capital inside or a dash is written with underscores, wherever it stands in crates/. Types and modules, which begin
with a capital, keep their names, and so do functions of src/. A lemma that would get the name of a definition gets `_lem` behind it. The
script stops before it writes anything if two names of one file would fall together.
"""

import collections
import glob
import os
import re
import sys

ROOT = os.path.abspath(sys.argv[1] if len(sys.argv) > 1 else os.path.join(os.path.dirname(__file__), "..", ".."))
WORD = r"[^\s(){}.;,@\"«»\[\]\\]+"
DECLARED = re.compile(r"^( *)(?:(?:abbrev|unfoldable|pub|opaque) )*(" + WORD + r"(?: " + WORD + r")*?) :(?: |$)")
FIELD = re.compile(r"^ +pub (" + WORD + r") :")
# The older kit's names of the parts of a walk, which the proofs declare again: they are turned with the proofs.
WALK = re.compile(r"^(invariant|decreases)-|^\+")

# A lemma beside a definition of the same words.
LEMMAS = set(
    "at-end first_below first-broken first_good found-head in_order in-range is-good judged-on kind-of late-test least-solution list-with "
    "margin-at mark-bytes mark-cut mask_at no-records none-head on_one one_more open-sum order-of".split()
)


def snake(name):
    return re.sub(r"(?<=[a-z0-9])[A-Z]", lambda m: "_" + m[0].lower(), name).replace("-", "_")


def texts():
    for pattern in ("specs", "proofs"):
        yield from sorted(glob.glob(f"{ROOT}/crates/*/{pattern}/**/*.antt", recursive=True))


def read(path):
    with open(path, encoding="utf-8") as f:
        return f.read()


def declared():
    """The names that the files declare, and those among them that are fields of records."""
    names, fields = set(), set()
    for path in texts():
        for line in read(path).splitlines():
            m = DECLARED.match(line)
            if m and not line.lstrip().startswith("--"):
                names.update(m[2].split())
            m = FIELD.match(line)
            if m:
                fields.add(m[1])
    return names, fields


def table(names):
    turned = {}
    for name in names:
        if name[0].isupper() or WALK.match(name):
            continue
        new = snake(name) + ("_lem" if name in LEMMAS else "")
        if new != name:
            turned[name] = new
    return turned


def turn(text, turned, fields, is_walk, is_proof):
    def one(m):
        word, behind_dot = m[0], m.start() > 0 and text[m.start() - 1] == "."
        if word not in turned or (word in LEMMAS and not is_proof):
            return word
        if behind_dot and (word in LEMMAS or (is_walk and word not in fields)):
            return word
        return turned[word]

    return re.sub(WORD, one, text)


def turn_rust(text, turned):
    """In the Rust files only words with a capital inside can be names of ours: the clauses, what they import, and comments."""
    return re.sub(r"(?<![\w])[a-z][a-z0-9]*(?:[A-Z][a-z0-9]*)+(?![\w])", lambda m: turned.get(m[0], m[0]), text)


def meets(path, text, turned, fields, is_walk, is_proof):
    """Names of the file that would become one."""
    found = collections.defaultdict(set)
    text = re.sub(r"--.*", "", text)
    for m in re.finditer(WORD, text):
        if m.start() > 0 and text[m.start() - 1] == ".":
            continue
        found[turn(m[0], turned, fields, is_walk, is_proof)].add(m[0])
    return [(path, new, sorted(olds)) for new, olds in found.items() if len(olds) > 1]


def main():
    names, fields = declared()
    turned = table(names)
    news, bad = {}, []
    for path in texts():
        is_walk, is_proof = path.endswith("/Proof.antt"), "/proofs/" in path
        text = read(path)
        bad += meets(path, text, turned, fields, is_walk, is_proof)
        news[path] = turn(text, turned, fields, is_walk, is_proof)
    for path in sorted(glob.glob(f"{ROOT}/crates/*/src/**/*.rt", recursive=True)):
        news[path] = turn_rust(read(path), turned)
    for path, new, olds in bad:
        print(f"names: in {path[len(ROOT) + 1:]} {' and '.join(olds)} would both be {new}", file=sys.stderr)
    if bad:
        raise SystemExit(1)
    count = 0
    for path, new in news.items():
        if new != read(path):
            with open(path, "w", encoding="utf-8") as f:
                f.write(new)
            count += 1
    print(f"names: {len(turned)} names, {count} files")


main()
