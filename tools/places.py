#!/usr/bin/env python3
"""Counts the places of the points of docs/DESIGN-PASS.md in the sources: python3 tools/places.py [FOLDER] [--list]. FOLDER is a checkout; without it this one."""
import glob
import os
import re
import sys
from collections import defaultdict

ARGS = [a for a in sys.argv[1:] if not a.startswith("--")]
LIST = "--list" in sys.argv
TOP = ARGS[0] if ARGS else os.path.dirname(os.path.dirname(os.path.abspath(__file__)))
found = defaultdict(list)


def closing(text, at):
    depth = 0
    for i in range(at, len(text)):
        if text[i] in "({[":
            depth += 1
        if text[i] in ")}]":
            depth -= 1
            if depth == 0:
                return i
    return len(text)


def functions(text):
    """name, parameters, clauses, body, line"""
    for m in re.finditer(r"^ *(?:pub(?:\(\w+\))? )?fn (\w+)(?:<[^(]*>)?\(", text, re.M):
        end = closing(text, m.end() - 1)
        body = re.compile(r"^ *\{\n|[^\n{]*\{\n", re.M)
        stop = text.find("\n}", end)
        for b in re.finditer(r"(?:(?<=\n) *|(?<=[\w>)\]] ))\{\n", text[end:]):
            head = text[end:end + b.start()]
            if head.count("{") == head.count("}"):
                at = end + b.end() - 2
                yield m.group(1), text[m.end():end], head, text[at + 1:closing(text, at)], text.count("\n", 0, m.start()) + 1
                break


for path in sorted(glob.glob(TOP + "/crates/*/src/*.rt")):
    text = open(path).read()
    where = os.path.relpath(path, TOP)
    crate = where.split("/")[1]
    plain = re.sub(r"//[^\n]*", "", text)
    # 1: own enums of the shape of Option or Result
    for m in re.finditer(r"^(?:pub )?enum (\w+) \{\n(.*?)^\}", plain, re.M | re.S):
        variants = re.findall(r"^    (\w+)(\([^\n]*\))?,", m.group(2), re.M)
        bare = [v for v, p in variants if not p]
        full = [v for v, p in variants if p]
        if len(variants) == 2 and len(full) >= 1:
            found["1 own Option or Result"].append((where, m.group(1)))
        if len(variants) == 3 and len(full) == 2 and len(bare) == 1 and "Refused" in m.group(2) + "Stop" and re.search(r"Refus|Breach", m.group(2)):
            found["1 own Option or Result"].append((where, m.group(1)))
        if bare[:1] == ["None"]:
            found["1 own Option or Result"].append((where, m.group(1)))
    # 1: an error passed on by hand
    for m in re.finditer(r"(?:Err|Refused|Stop|Bad|\w+::Refused|\w+::Stop|\w+::Bad)\((\w+)\) => (?:\{\s*)?(?:return )?(?:\w+::)?(?:Err|Refused|Stop|Bad)\(\1\)", plain):
        found["1 an error passed on by hand"].append((where, m.group(0).split("\n")[0]))
    # 1: a flag with a value beside it
    for m in re.finditer(r"^(?:pub )?struct (\w+)(?:<[^>]*>)? \{\n(.*?)^\}", plain, re.M | re.S):
        for flag in re.findall(r"(\w+): bool", m.group(2)):
            found["1 a flag beside values"].append((where, m.group(1) + "." + flag))
        for number in re.findall(r"(number): u(?:8|64)", m.group(2)):
            found["1 a number for a refusal"].append((where, m.group(1) + "." + number))
    fns = list(functions(plain))
    for name, params, head, body, line in fns:
        at = "%s:%d" % (where, line)
        if re.search(r"Result<[^<>]*(?:<[^<>]*>)?[^<>]*, u8>", params + head):
            found["1 a number for a refusal"].append((at, name))
        # 2: twins by name
        if re.search(r"_(tiny|small|large)$", name):
            found["2 twins by size"].append((at, name))
        # 3: loops that count an index by hand
        for m in re.finditer(r"while (?:(\w+) <=? [^\n{]*|0 < (\w+)|(\w+) > 0|[^\n{]*(\w+)) \{\n", body):
            end = closing(body, m.end() - 2)
            inner = body[m.end():end]
            var = next((g for g in m.groups() if g), "")
            if re.search(r"\b%s [+-]= 1;" % re.escape(var), inner):
                found["3 loops that count by hand"].append((at, name))
        for m in re.finditer(r"\bwhile (?!let\b)|\bloop \{", body):
            found["3 any while or loop"].append((at, name))
        # 4: predicates by match, conversions by `as`
        if re.search(r"match \w+ \{\s*(?:[^=]+=> (?:true|false),\s*){2,}\}\s*$", body) and "true" in body and "false" in body:
            found["4 a test of variants by hand"].append((at, name))
        if re.match(r"\s*\w+ as u(?:8|16|32|64|size)\s*$", body):
            found["4 a conversion by hand"].append((at, name))
        # 5: parameters that travel together
        names = re.findall(r"(?:^|[\s(,])(?:mut )?(\w+): ", params)
        flat = re.sub(r"\s+", " ", params)
        if "t: &[u8; 256], y: Syntax" in flat:
            found["5 the class table and its syntax"].append((at, name))
        if {"names", "slots", "marks", "heads"} <= set(names):
            found["5 the tables of the walk"].append((at, name))
        if {"s", "at", "marks"} <= set(names):
            found["5 a segment and its marks"].append((at, name))
        if "c" in names and "rows" in names and "t" in names:
            found["5 what was found of a message"].append((at, name))
        # 6: a buffer with a length beside
        if re.search(r"&mut \[u8(?:; \d+)?\], \w+: usize", flat):
            found["6 a buffer with a place beside"].append((at, name))
    # 4: rebuilt by hand
    for m in re.finditer(r"\{((?:\s*(\w+): (\w+)\.(\w+),){3,})", plain):
        found["4 a struct copied field by field"].append((where, m.group(1).split(",")[0].strip()))
    # 7
    for m in re.finditer(r"\bfn\(|\bdyn \w|&\[fn", plain):
        found["7 tables of functions"].append((where, m.group(0)))

lines = 0
for path in glob.glob(TOP + "/crates/*/proofs/**/*.antt", recursive=True):
    if os.path.basename(path) in ("Answers.antt", "Invariants.antt"):
        lines += sum(1 for _ in open(path))

for key in sorted(found):
    print("%4d  %s" % (len(found[key]), key))
    if LIST:
        for place, what in found[key]:
            print("        %s  %s" % (place, what))
print("%4d  8 lines of answers and invariants" % lines)
