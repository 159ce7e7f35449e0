#!/usr/bin/env python3
"""Turns proofs that walk the code by the older names of its steps to Invariants.antt and Answers.antt.

usage: rt names NAMES; tools/answers.py NAMES CRATE..

For each proofs/F/Proof.antt of the crates, as port.py leaves them: each need is an answer under today's name of its goal, each
invariant and measure a function of `l`, each path `c.before.before.if1.true` the path `c.if-x-y.true`. Clauses that have names
are read and written by them. An answer that only searches goes, since the check searches by itself. NAMES is the folder that
`rt names` wrote, at the top, before any proof file changed. Commit first: the files are rewritten. What it can't turn it
prints; facts of a join of branches and functions that call themselves are left for the hand. Then rt fmt and rt check.
"""

import glob
import json
import os
import re
import sys

SEGMENT = r"[^\s(){}.;,@\"«»\[\]\\λ]+"
FN = re.compile(r'(?m)^(?:    )?(?:pub )?(?:unsafe )?(?:extern "C" )?fn (\w+)')
DECLARED = re.compile(r"(?:abbrev )?(?:pub )?(\S+) :(?: (.*))?$")
PLAIN = ("args", "requires", "well_formed", "ranges", "lifetimes", "type_inv")


def dashed(name):
    return name.replace("_", "-")


def names_of(folder, crate):
    """What `rt names` says of each function of the crate, by the function's path."""
    with open(f"{folder}/crates/{crate}/names.json", encoding="utf-8") as f:
        modules = json.load(f)
    found = ((re.fullmatch(rf"Rattle-{crate}-proofs\.(.*)\.Lts(.*)", k), v) for k, v in modules.items())
    return {m[1]: v for m, v in found if m}


def clause_names():
    """The names of the requires and of the ensures of each function, by the function's whole path."""
    clauses = {}
    for path in glob.glob("crates/*/src/*.rt"):
        _, crate, _, file = path.split("/")
        module = [] if file in ("lib.rt", "main.rt") else [file[:-3]]
        with open(path, encoding="utf-8") as f:
            text = f.read()
        for m in FN.finditer(text):
            head = re.split(r"(?m)^(?:    )?\{", text[m.start() :], maxsplit=1)[0]
            kinds = [re.findall(rf"(?m)^\s+{kind} (\w+) \{{", head) for kind in ("requires", "ensures")]
            clauses["::".join([crate, *module, m[1]])] = kinds
    return clauses


def tuple_of(words):
    return words[0] if len(words) == 1 else f"({words[0]}, {tuple_of(words[1:])})"


def by_name(head, parts, names):
    """The path `head` + `parts`, where `parts` picks one of the clauses by its place in a row of pairs."""
    k = 0
    while len(names) > 1 and parts[:1] == ["1"] and k < len(names) - 1:
        k, parts = k + 1, parts[1:]
    if len(names) > 1 and k < len(names) - 1:
        if not parts:
            return tuple_of([".".join([*head, n]) for n in names[k:]])
        if parts[0] != "0":
            return ".".join([*head, *["1"] * k, *parts])
        parts = parts[1:]
    return ".".join([*head, *names[k : k + 1][: len(names) > 1], *parts])


def parts_of(text):
    """The parts of a tuple `(a, b)`; None where the text is no tuple."""
    text, depth, parts, last = text.strip(), 0, [], 1
    if not text.startswith("("):
        return None
    for i, ch in enumerate(text):
        depth += (ch in "([{") - (ch in ")]}")
        if ch in ")]}" and depth == 0:
            return [*parts, text[last:i].strip()] if parts and i == len(text) - 1 else None
        if ch == "," and depth == 1:
            parts.append(text[last:i].strip())
            last = i + 1
    return None


def behind_lets(text):
    """Where the term begins that stands behind the last `in` of no bracket."""
    depth, at = 0, 0
    for i, ch in enumerate(text):
        depth += (ch in "([{") - (ch in ")]}")
        if depth == 0 and re.match(r"\sin[\s(]", text[i : i + 4]):
            at = i + 3
    return at


def as_record(text, names):
    """A proof of several clauses: a tuple becomes the record of their names."""
    at = behind_lets(text)
    lets, term = text[:at], text[at:].strip()
    if re.match(r"record|search|λ|elim", term):
        return text
    fields = []
    while len(fields) < len(names) - 1:
        parts = parts_of(term)
        if parts is None:
            break
        fields.append(parts[0])
        term = parts[1] if len(parts) == 2 else "(" + ", ".join(parts[1:]) + ")"
    rest = names[len(fields) :]
    if len(rest) == 1:
        fields.append(term)
        return f"{lets} record {{ " + "; ".join(f"{n} = {f}" for n, f in zip(names, fields)) + " }"
    fields += ["both" + ".1" * i + (".0" if i < len(rest) - 1 else "") for i in range(len(rest))]
    return f"{lets} let both = {term} in record {{ " + "; ".join(f"{n} = {f}" for n, f in zip(names, fields)) + " }"


class Function:
    def __init__(self, names, own, clauses, said):
        self.names, self.own, self.clauses, self.said, self.imports = names, own, clauses, said, set()
        places = names["places"]
        self.steps = {}
        for place in places:
            if place[2][0]:
                self.steps.setdefault(dashed(place[2][0]), place[2][1])
        self.callees = {dashed(p[2][0]): p[3] for p in places if p[3]}
        self.calls = {re.sub(r"-\d+$", "", p[2][1]) for p in places if p[3]}
        self.arms = {}
        for name, _, fields in filter(None, names["arms"]):
            for new, step, path in fields:
                if not new.endswith("-own"):
                    self.arms.setdefault((dashed(step), *path), f"{name}.{new}")
        self.goals = {}
        for old, new in names["needs"]:
            self.goals.setdefault(dashed(old), new)
        self.asked = {dashed(k): v for k, v in names["asked"].items()}

    def path(self, m):
        """Today's path of a fact that the older path `c.before..` led to."""
        base, parts = m[1], m[2][1:].split(".")
        while parts and parts[0] == "before":
            parts = parts[1:]
        if not parts:
            return base
        step = dashed(parts[0])
        for n in range(len(parts), 1, -1):
            if (step, *parts[1:n]) in self.arms:
                return ".".join([base, self.arms[step, *parts[1:n]], *parts[n:]])
        if parts[0] == "requires":
            return by_name([base, "requires"], parts[1:], self.own[0])
        if parts[0] in PLAIN:
            return ".".join([base, *parts])
        if step not in self.steps:
            self.said(f"step? {'.'.join([base, *parts])}")
            return ".".join([base, *parts])
        return self.of_step(base, self.steps[step], self.callees.get(step), parts[1:])

    def of_step(self, base, step, callee, parts):
        head = [base, step]
        if parts[:1] == ["ensures"] and callee in self.clauses:
            return by_name([*head, "ensures"], parts[1:], self.clauses[callee][1])
        # The test of `!f(x)` was `not r`; it is `r` the other way round.
        tested = re.sub(r"-\d+$", "", step[7:]) if step.startswith("if-not-") else ""
        if {tested, step[7:]} & self.calls and parts in (["true"], ["false"]):
            law = "not_from_false" if parts == ["true"] else "not_from_true"
            self.imports.add(law)
            return f"({law} _ {'.'.join([*head, *parts])})"
        old = parts[0] if parts else ""
        parts = [{"inv": "invariant", "last": "new", "kept": "new"}.get(old, old), *parts[1:]] if parts else []
        args = self.names["params"].get(callee) if callee else None
        if parts[:1] in (["new"], ["auto"]) and parts[1:2] and parts[1].isdigit() and args:
            k, left = 0, parts[1:]
            while left[:1] == ["1"] and k < len(args) - 1:
                k, left = k + 1, left[1:]
            parts = [parts[0], args[k], *left[left[:1] == ["0"] :]]
        return ".".join([*head, *parts])

    def paths(self, text):
        names = ["c"]
        for a, b in re.findall(r"let (\w+) = (\w+)(?:\.before)* in", text):
            if b in names:
                names.append(a)
        return re.sub(rf"(?<![\w.'-])({'|'.join(names)})((?:\.{SEGMENT})+)", self.path, text)

    def loop(self, kind, loop, text):
        """An invariant or a measure: what it took one by one stands in `l`."""
        loops = {dashed(n[0]): (n[1], vs, ch) for (n, vs), ch in zip(self.names["loops"], self.names["changed"])}
        if dashed(loop) not in loops:
            return self.said(f"loop? {loop}")
        name, variables, changed = loops[dashed(loop)]
        opened, left, right = cut(text)
        was = left.split()[1:]
        now = [("l.initial." if c else "l.") + v for v, c in zip(variables, changed)]
        now += ["l." + v for v, c in zip(variables, changed) if c]
        if len(was) != len(now):
            self.said(f"{kind}-{loop}: {len(was)} variables, not {len(now)}")
        for a, b in zip(was, now):
            right = re.sub(rf"(?<![\w.'₀-₉-]){re.escape(a)}(?![\w'₀-₉-])", b, right) if a != "_" else right
        return f"abbrev pub {kind}-{name} : goal.{kind}-{name}\n{opened}{kind}-{name} l ={right.rstrip()}\n"

    def answer(self, name, need, text):
        opened, _, right = cut(text)
        if right.strip() == "search rules" and not opened:
            return None
        goal = self.goals.get(dashed(name)) or self.goals.get(dashed(need))
        if not goal:
            settled = {dashed(it) for it in self.names.get("settled", [])}
            return None if dashed(need) in settled else self.said(f"need? {name} ({need})")
        right = self.paths(right).rstrip()
        names = next((self.asked[k] for k in map(dashed, (goal, name, need)) if k in self.asked), None)
        right = as_record(right, [n if isinstance(n, str) else n[-1] for n in names]) if names else right
        return f"pub {goal} : goal.{goal}\n{opened}{goal} c ={right}\n"


def cut(text):
    """The `unfolding` lines of a declaration, and what stands left and right of its `=`."""
    lines = text.strip("\n").split("\n")
    opened = ""
    while lines[0].startswith("unfolding"):
        opened += lines.pop(0) + "\n"
    left, _, right = "\n".join(lines).partition("=")
    return opened, left, right


def declarations(text):
    """The use lines, and each declaration: its name, its type and the lines below."""
    uses, found = [], []
    for line in text.split("\n"):
        m = DECLARED.match(line) if line[:1].strip() else None
        if line.startswith("use "):
            uses.append(line)
        elif m and not line.startswith("--"):
            found.append([m[1], m[2] or "", ""])
        elif found and not line.startswith("--"):
            found[-1][2] += line + "\n"
    return uses, found


def turn(crate, path, names, clauses):
    folder = os.path.dirname(path)
    function = os.path.relpath(folder, f"crates/{crate}/proofs").replace("/", ".")
    said = lambda it: print(f"{crate} {function}: {it}")
    with open(path, encoding="utf-8") as f:
        text = f.read()
    if "tie.close" not in text or function not in names:
        return said("left as it is")
    own = clauses.get("::".join([crate, *function.split(".")]), [[], []])
    it = Function(names[function], own, clauses, said)
    uses, found = declarations(text)
    files = {"Invariants": ("Given", []), "Answers": ("Goals", [])}
    for name, kind, below in found:
        loop, need = re.match(r"tie\.(invariant|decreases)-(\S+)", kind), re.match(r"tie\.Need-(\S+)", kind)
        if loop:
            files["Invariants"][1].append(it.loop(loop[1], loop[2], below))
        elif need:
            files["Answers"][1].append(it.answer(name, need[1], below))
        elif "statement M" not in kind:
            said(f"declaration? {name}")
    kept = [u for u in uses if not re.search(r"\.(Statement|Tie|Lts|Reads)\b", u)]
    if it.imports:
        kept.append(f"use Rattle.std.proofs.lemmas.Bool.{{{', '.join(sorted(it.imports))}}}")
    for file, (module, texts) in files.items():
        texts = [t for t in texts if t]
        if texts:
            goals = f"use Rattle.{crate}.proofs.{function}.{module} as goal"
            with open(f"{folder}/{file}.antt", "w", encoding="utf-8") as f:
                f.write("\n".join([*kept, goals, "", *texts]))
    os.remove(path)


def main(argv):
    if len(argv) < 2:
        print(__doc__)
        return 2
    clauses = clause_names()
    for crate in argv[1:]:
        names = names_of(argv[0], crate)
        for path in sorted(glob.glob(f"crates/{crate}/proofs/**/Proof.antt", recursive=True)):
            turn(crate, path, names, clauses)
    return 0


if __name__ == "__main__":
    raise SystemExit(main(sys.argv[1:]))
