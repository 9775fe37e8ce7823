#!/usr/bin/env python3
"""Lists the places in crates/*/src where an older form of code may stand, by the rules of docs/DESIGN-PASS.md.

    python3 tools/places.py          how many places each rule finds
    python3 tools/places.py 3b       the places that rule 3b finds
    python3 tools/places.py all      every place

Each rule is a coarse one: it finds places to read, some of which are as they should be.
"""
import difflib
import glob
import itertools
import re
import sys
from collections import defaultdict

WORD = re.compile(r"[A-Za-z_][A-Za-z0-9_]*|[0-9][0-9_a-z]*|->|=>|::|\.\.|==|!=|<=|>=|&&|\|\||[^\s]")
KEYWORDS = set("fn let mut if else for in while loop match return self Self pub crate as break continue true false None Some Ok Err ref move impl where dyn const struct enum u8 u16 u32 u64 u128 usize bool".split())


def strip(text):
    """The code without comments and without what is for proofs alone."""
    lines = []
    for line in text.split("\n"):
        bare = line.strip()
        lines.append("" if bare.startswith(("//", "ghost ", "pub ghost ")) else line)
    return "\n".join(lines)


def closing(text, at):
    """The place of the brace that closes the one at a place."""
    depth = 0
    for i in range(at, len(text)):
        depth += {"{": 1, "}": -1}.get(text[i], 0)
        if depth == 0:
            return i
    return len(text) - 1


class Function:
    def __init__(self, path, line, name, head, clauses, body):
        self.path, self.line, self.name = path, line, name
        self.crate = path.split("/")[1]
        self.clauses, self.body = clauses, body
        inside = head[head.index("(") + 1:] if "(" in head else ""
        self.parameters = re.findall(r"(\w+): ((?:&(?:mut )?)?[\w\[\]; ]+(?:<[^>]*>)?)", inside.split("->")[0])
        self.tokens = WORD.findall(body)

    def where(self):
        return f"{self.path}:{self.line} {self.name}"

    def shape(self):
        """The body with every name and number replaced by the order in which they first come."""
        order = {}
        return [t if t in KEYWORDS or not re.match(r"\w", t) else order.setdefault(t, f"x{len(order)}") for t in self.tokens]


def functions(path, text):
    for found in re.finditer(r"^[ ]*(?:pub(?:\(crate\))? )?(?:const )?fn (\w+)", text, re.M):
        rest = text[found.end():]
        head, clauses, at = "", [], 0
        while at < len(rest) and rest[at] not in "{;":
            clause = re.match(r"\n\s*(requires|ensures)(?: \w+)? \{", rest[at:])
            if clause:
                start = at + clause.end() - 1
                end = closing(rest, start)
                clauses.append(" ".join(rest[start + 1:end].split()))
                at = end + 1
            else:
                head += rest[at]
                at += 1
        body = rest[at:closing(rest, at) + 1] if at < len(rest) and rest[at] == "{" else ""
        yield Function(path, text[:found.start()].count("\n") + 1, found.group(1), head, clauses, body)


def read():
    files, all_functions = {}, []
    for path in sorted(glob.glob("crates/*/src/**/*.rt", recursive=True)):
        files[path] = strip(open(path).read())
        all_functions += list(functions(path, files[path]))
    return files, all_functions


def by_line(files, pattern):
    rule = re.compile(pattern)
    return [f"{path}:{i} {line.strip()}" for path, text in files.items() for i, line in enumerate(text.split("\n"), 1) if rule.search(line)]


def twins(all_functions, least, alike):
    """Pairs of functions whose bodies are alike up to their names and numbers."""
    long = [f for f in all_functions if len(f.tokens) >= least]
    shapes = [f.shape() for f in long]
    found = []
    for (f, s), (g, t) in itertools.combinations(zip(long, shapes), 2):
        if min(len(s), len(t)) / max(len(s), len(t)) >= alike:
            matcher = difflib.SequenceMatcher(None, s, t, False)
            if matcher.quick_ratio() >= alike and matcher.ratio() >= alike:
                found.append(f"{f.where()} ~ {g.where()}")
    return found


def index_loops(files):
    """Loops over a range whose number is a subscript, or that step another number along."""
    found = []
    for path, text in files.items():
        for loop in re.finditer(r"for (\w+) in [^{\n]*\.\.[^{\n]*\{", text):
            body = text[loop.end():closing(text, loop.end() - 1)]
            if re.search(r"\[[^\]]*\b" + loop.group(1) + r"\b[^\]]*\]", body) or re.search(r"^\s*\w+ \+= [^;]*[0-9][^;]*;", body, re.M):
                found.append(f"{path}:{text[:loop.start()].count(chr(10)) + 1} {loop.group(0)}")
    return found


def repeated_clauses(all_functions):
    seen = defaultdict(list)
    for f in all_functions:
        for clause in set(f.clauses):
            for part in set(re.split(r"(?<=\)) × (?=\()", clause)):
                seen[f.crate, re.sub(r"[()]", "", part)].append(f.where())
    return [f"{crate}: {clause[:110]} :: {len(names)} functions" for (crate, clause), names in sorted(seen.items()) if len(names) >= 3 and re.search(r"[≤<≡]|[A-Z]\w+ ", clause) and not clause.startswith("result")]


def travelling(all_functions):
    seen = defaultdict(set)
    for f in all_functions:
        for group in itertools.combinations(sorted(set(f.parameters)), 3):
            seen[f.crate, group].add(f.where())
    groups = {k: v for k, v in seen.items() if len(v) >= 3}
    return [f"{crate}: {', '.join(n + ': ' + t for n, t in group)} :: {len(names)} functions" for (crate, group), names in sorted(groups.items())]


def structs(files):
    for path, text in files.items():
        for found in re.finditer(r"struct (\w+)[^{;]*\{", text):
            body = text[found.end():closing(text, found.end() - 1)]
            yield f"{path}:{text[:found.start()].count(chr(10)) + 1} {found.group(1)}", re.findall(r"(\w+): ([^,\n]+),", body)


def answers(pattern, rule):
    return [f"{path}: {name}" for path in sorted(glob.glob(pattern, recursive=True)) for name in re.findall(rule, open(path).read(), re.M)]


def rules(files, all_functions):
    fields = list(structs(files))
    return {
        "1a own enums": by_line(files, r"^\s*(pub )?enum "),
        "1b flags: fields, arrays and parameters of bool": by_line(files, r"\b\w+: (bool\b|\[bool;)"),
        "1c numbers or texts that stand for cases, in arms of a match": by_line(files, r"::\w+ => (\d+|\")|^\s*\d+ => "),
        "1d results taken apart by an arm for the error": by_line(files, r"^\s*Err\(\w+\) => "),
        "2a functions alike up to names and numbers (30 words at least, 0.85)": twins(all_functions, 30, 0.85),
        "2b types with the same types of fields": [f"{a} ~ {b}" for (a, s), (b, t) in itertools.combinations(fields, 2) if len(s) > 1 and [x[1] for x in s] == [x[1] for x in t]],
        "2c fields of one type in a row, three or more": [name for name, f in fields if any(len(list(g)) >= 3 for _, g in itertools.groupby(x[1] for x in f))],
        "3a while": by_line(files, r"^\s*while "),
        "3b for over a range that is a subscript or steps another number": index_loops(files),
        "4a impls of the library's comparing, copying, converting and printing traits by hand": by_line(files, r"^impl.* (PartialEq|PartialOrd|Eq|Ord|Clone|Copy|Default|Hash|Debug|fmt::Display|Display|From<.*>|TryFrom<.*>) for "),
        "4b widening by as": by_line(files, r" as (u64|u128)\b|\w as u32;"),
        "5a clauses, or parts of one, in three or more functions of a crate": repeated_clauses(all_functions),
        "5b three parameters that come together in three or more functions of a crate": travelling(all_functions),
        "6a structs with two lists": [name for name, f in fields if sum(1 for _, t in f if re.match(r"Vec<|\[", t)) > 1],
        "6b a list and its place or length beside it": [name for name, f in fields if any(re.match(r"Vec<|\[", t) for _, t in f) and any(t in ("usize", "u32") for _, t in f)],
        "6c a slice and where in it, by numbers beside it": [f.where() for f in all_functions if any("[" in t for _, t in f.parameters) and sum(1 for _, t in f.parameters if t == "usize") >= 2],
        "7a a parameter of bool that picks a step": [f.where() for f in all_functions if any(t == "bool" for _, t in f.parameters)],
        "7b a match whose arms call": [f.where() for f in all_functions if len(re.findall(r"::\w+(?:\(\w+\))? => (?:\w+::\w+\()?(?:\w+\.)?\w+\(", f.body)) >= 3],
        "8a answers": answers("crates/*/proofs/**/Answers.antt", r"^pub ([\w'-]+) :"),
        "8b lemmas in proofs/": answers("crates/*/proofs/*.antt", r"^\s*pub ([\w'-]+) :"),
    }


def main():
    found = rules(*read())
    wanted = sys.argv[1] if len(sys.argv) > 1 else ""
    for name, places in found.items():
        print(f"{len(places):4} {name}")
        if wanted == "all" or (wanted and name.startswith(wanted)):
            print("".join(f"       {place}\n" for place in places), end="")


main()
