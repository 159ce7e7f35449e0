#!/usr/bin/env python3
"""Brings the repository's own words of specs/ and proofs/ to snake case: inSubset to in_subset, usx0062Text to usx0062_text.

usage: tools/respell.py [--check] FILE-OR-FOLDER ..

Run once, at the top, after port.py: it rewrites .rt, .antt and .edit files (and the .md files that are named) in place.
A word is an identifier that begins with a small letter and has a capital later; types, facts and modules, which begin
with a capital, keep their spelling, and so does each name that the kit's libraries have. In a name of several parts, as
name-joinedName, each part is a word by itself. --check writes nothing and prints each word with its new spelling.
It stops where two words would fall together, or where a new spelling is a name already.
"""

import os
import re
import subprocess
import sys

KIT = os.environ.get("RATTLE_HOME", "/opt/rattle")
NAME = re.compile(r"[^\W\d_][\w'₀-₉-]*")
CAMEL = re.compile(r"^[a-z][a-z0-9_]*[A-Z]")
# A capital behind a small letter, a digit or a joined part begins a word; a row of capitals is one.
# Lemmas whose names a word now has: such a lemma gets `_lem`.
LEMMAS = {n: n + "_lem" for n in "all_named count_at goes_on held_by in_order no_text none_from size_in text_at".split()}
LEMMA = re.compile(r"(?<![\w.'-])(" + "|".join(LEMMAS) + r")(?![\w'-])")
BREAK = re.compile(r"(?<=[a-z0-9])(?=[A-Z])")


def part(p):
    return BREAK.sub("_", p).lower() if CAMEL.match(p) else p


def spelled(name):
    return "-".join(part(p) for p in name.split("-"))


def files(tops):
    for top in tops:
        if os.path.isfile(top):
            yield top
        for folder, dirs, names in os.walk(top):
            dirs[:] = sorted(d for d in dirs if d not in ("out", "target", ".git"))
            yield from (os.path.join(folder, n) for n in sorted(names) if n.endswith((".rt", ".antt", ".edit")))


def kit_words(words):
    """Those of the words that stand in the kit's own specs, proofs or sources."""
    out = subprocess.run(["grep", "-rhowE", "[a-z][a-z0-9_]*[A-Z][A-Za-z0-9_]*", KIT + "/rattle", "--include=*.antt", "--include=*.rt"], capture_output=True, text=True).stdout
    return set(words) & set(out.split())


def main(argv):
    check = "--check" in argv
    tops = [a for a in argv if a != "--check"] or ["crates"]
    texts = {f: open(f, encoding="utf-8").read() for f in files(tops)}
    seen = set()
    for t in texts.values():
        seen.update(NAME.findall(t))
    parts = {p for n in seen for p in n.split("-")}
    table = {p: part(p) for p in parts if part(p) != p}
    keep = kit_words(table)
    table = {p: q for p, q in table.items() if p not in keep}
    back = {}
    for p, q in table.items():
        back.setdefault(q, []).append(p)
    bad = [f"{' and '.join(ps)} fall together as {q}" for q, ps in back.items() if len(ps) > 1]
    bad += [f"{p}: {q} is a name already" for p, q in table.items() if q in parts]
    for p in sorted(table):
        if check:
            print(p, table[p])
    for k in sorted(keep):
        print("kept, the kit has it:", k, file=sys.stderr)
    for b in sorted(bad):
        print("look:", b, file=sys.stderr)
    if check:
        return 0

    def turn(m):
        return "-".join(table.get(p, p) for p in m.group().split("-"))

    for f, t in texts.items():
        if f.endswith(".antt"):
            t = LEMMA.sub(lambda m: LEMMAS[m.group()], t)
        new = NAME.sub(turn, t)
        if new != texts[f]:
            with open(f, "w", encoding="utf-8") as out:
                out.write(new)
    return 0


if __name__ == "__main__":
    raise SystemExit(main(sys.argv[1:]))
