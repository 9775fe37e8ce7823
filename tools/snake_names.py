#!/usr/bin/env python3
"""Brings the repository's own definitions, lemmas and record fields to snake case.

usage: python3 tools/snake_names.py [--list]     at the top of the repository

Renames what specs/ and proofs/ declare and spell otherwise, as rowCount or size-le, wherever it is cited: in .antt files,
in the clauses of .rt files and in the edits of must-fail/. Functions of src/ keep their names, and so do types. A name
whose snake case is taken already keeps its spelling. With --list it only prints what it would do.
"""

import glob
import re
import sys

DECLARED = re.compile(r"^\s*(?:abbrev |unfoldable |pub )*([^\s(){}.,;:\u03bb]+)\s*:(?=\s)")
FIELD = re.compile(r"^\s+pub ([^\s(){}.,;:\u03bb]+)\s*:(?=\s)")
TOKEN = re.compile(r"[^\s(){}.,;:\u00ab\u00bb|\\]+")
# where a function of src/ or a lemma has the snake case already: a name of its own, or the same name in another place
CHOSEN = {
    "distinctTold": "told_distinct",
    "rowsTold": "told_rows",
    "startTold": "told_start",
    "codesTold": "told_codes",
    "entryTotal": "total_entries",
    "ownerSaid": "said_owner",
    "countBelow": "numbers_below",
    "lastGranted": "last_granted",
    "zeroAt": "zero_at",
    "goesOn": "goes_on",
    "countedOf": "counted_of",
    "footprintOf": "footprint_of",
    "columnAt": "column_at",
    "rowCount": "row_count",
    "columnCount": "column_count",
    "entryCount": "entry_count",
    "entriesBetween": "entries_between",
}
ANSWERS = ("/Answers.antt", "/Invariants.antt", "/Proof.antt")


def read(path):
    with open(path, encoding="utf-8") as f:
        return f.read()


def snake(name):
    name = re.sub(r"(?<=[a-z0-9])([A-Z])", r"_\1", name).lower()
    return name.replace("-", "_")


def main():
    antt = sorted(glob.glob("crates/*/specs/**/*.antt", recursive=True) + glob.glob("crates/*/proofs/**/*.antt", recursive=True))
    lemmas = [p for p in antt if "/specs/" in p or not p.endswith(ANSWERS)]
    sources = sorted(glob.glob("crates/*/src/**/*.rt", recursive=True))
    edits = sorted(glob.glob("crates/*/must-fail/*.edit"))

    declared, fields = set(), set()
    for path in lemmas:
        inside = False
        for line in read(path).split("\n"):
            if re.match(r"\s*(pub )?record ", line) and line.rstrip().endswith("where"):
                inside = True
                continue
            if inside and not line.startswith(" "):
                inside = False
            found = DECLARED.match(line)
            if found:
                declared.add(found.group(1))
                if inside and FIELD.match(line):
                    fields.add(found.group(1))

    wanted = {n: CHOSEN.get(n, snake(n)) for n in declared if re.match(r"[a-z]", n) and snake(n) != n and re.search(r"[a-z]([A-Z]|-)|-", n)}
    # every word that stands anywhere now, and what std gives
    words, given = set(), set()
    for path in antt + sources:
        text = read(path)
        words |= set(TOKEN.findall(text))
        for line in re.findall(r"use Rattle\.std\.[\w.+-]+\.\{([^}]*)\}", text):
            given |= {w.strip().split(" as ")[-1] for w in line.split(",")}
    targets = {}
    for n in sorted(wanted):
        targets.setdefault(wanted[n], []).append(n)
    kept = {}
    for n in sorted(wanted):
        t = wanted[n]
        if n in CHOSEN:
            continue
        if n in given:
            kept[n] = "std's"
        elif len(targets[t]) > 1 and (targets[t][0] != n or any(o in CHOSEN for o in targets[t])):
            kept[n] = "falls together with " + targets[t][0]
        elif t in words:
            kept[n] = "taken"
    if "--list" in sys.argv:
        for n in sorted(kept):
            print(n, "stays:", kept[n])
    names = {n: t for n, t in wanted.items() if n not in kept}

    def renamed(path, text):
        goals = set(re.findall(r"(?:goal|given)\.([^\s(){}.,;:]+)", text))

        def one(found):
            word = found.group(0)
            before = text[found.start() - 1] if found.start() else ""
            if word not in names or word in goals:
                return word
            if before == "." and word not in fields and not re.search(r"(specs|proofs)[\w.]*\.$", text[max(0, found.start() - 80):found.start()]):
                dotted.add((path, word))
                return word
            return names[word]

        return TOKEN.sub(one, text)

    dotted = set()
    changed = 0
    for path in antt + sources + edits:
        text = read(path)
        new = renamed(path, text)
        if new != text:
            changed += 1
            if "--list" not in sys.argv:
                with open(path, "w", encoding="utf-8") as f:
                    f.write(new)
    if "--list" in sys.argv:
        for path, word in sorted(dotted):
            print(path, "keeps the dotted", word)
    print(f"snake_names: {len(names)} names, {len(kept)} kept, {changed} files")


main()
