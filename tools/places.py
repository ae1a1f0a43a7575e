#!/usr/bin/env python3
"""Lists the places in src/ that docs/DESIGN-PASS.md counts: tools/places.py [ROOT] [--list]

Without --list it prints the counts alone. A place is a line FILE: WHAT under the number of its point. Tests and the lines of
comments are read like all else."""
import pathlib
import re
import sys
from collections import defaultdict

LISTED = "--list" in sys.argv
ROOTS = [a for a in sys.argv[1:] if not a.startswith("--")]
ROOT = pathlib.Path(ROOTS[0] if ROOTS else ".")

# variants by which an enum says that a value is not there, or that something failed
LACKING = re.compile(
    r"^(Unknown|NoWidth|Nothing|NoValue|NoOutcome|TooMany|TooLong|TooShort|Short|Open|Refused|Unfit|NotPlain|Stopped"
    r"|Unread|Unwritten|Cut|Over|Absent|None|Err|NoBranch|Undecided)$"
)
KEYWORDS = set(
    "fn pub let mut if else match while for in return struct enum impl const self Self as loop break continue true false u8 u16 u32 u64 "
    "usize bool requires ensures use type ghost".split()
)


def sources():
    for path in sorted(ROOT.glob("crates/*/src/**/*.rt")):
        text = re.sub(r"//.*", "", path.read_text())
        yield path.relative_to(ROOT / "crates"), text


def braced(text, start):
    """The text from the brace at `start` to the one that closes it."""
    depth = 0
    for i in range(start, len(text)):
        depth += {"{": 1, "}": -1}.get(text[i], 0)
        if depth == 0:
            return text[start : i + 1]
    return text[start:]


class Function:
    def __init__(self, path, text, m):
        self.path, self.name = path, m.group(1)
        following = re.compile(r'\n\s*(?:pub )?(?:const )?(?:extern "C" )?fn ').search(text, m.end())
        limit = following.start() if following else len(text)
        # the body opens at the end of the head's line, or after clauses on a line of its own
        opening = re.compile(r"\{\n").search(text, m.end(), limit)
        start = opening.start() if opening else m.end()
        self.head = text[m.start() : start]
        self.body = braced(text, start) if start < len(text) and text[start] == "{" else ""
        inside = re.search(r"\(([^)]*)\)", self.head, re.S)
        self.parameters = [p.strip() for p in (inside.group(1) if inside else "").replace("\n", " ").split(",") if p.strip()]

    def requires(self):
        return [re.sub(r"\s+", " ", c).strip() for c in re.findall(r"requires(?: \w+)? \{(.*?)\}\n", self.head + "\n", re.S)]


def functions():
    for path, text in sources():
        for m in re.finditer(r"(?m)^\s*(?:pub )?(?:const )?(?:extern \"C\" )?fn (\w+)", text):
            yield Function(path, text, m)


def kinds():
    for path, text in sources():
        for m in re.finditer(r"enum (\w+)[^{]*\{", text):
            variants = re.findall(r"^\s*(\w+)(?:\(.*?\)|\s*=\s*\d+)?,", braced(text, m.end() - 1), re.M)
            lacking = [v for v in variants if LACKING.match(v)]
            if lacking:
                yield path, f"enum {m.group(1)}: {', '.join(lacking)}"
        for m in re.finditer(r"struct (\w+)[^{;]*\{", text):
            fields = re.findall(r"^\s*(?:pub )?(\w+): (\w+)", braced(text, m.end() - 1), re.M)
            flags = [n for n, t in fields if t in ("bool", "Place", "Answer", "Progress", "Written") or n == "known"]
            if flags and len(fields) > 1:
                yield path, f"struct {m.group(1)}: {', '.join(flags)} beside values"
        sets = re.findall(r"(?m)^(?:pub )?const (\w+): (?:u64|usize|u8) = \d+;", text)
        if len(sets) > 2:
            yield path, f"{len(sets)} numbers by name: {', '.join(sets)}"


def shape(body):
    words = re.findall(r"\w+|[^\w\s]", body)
    return " ".join(w if w in KEYWORDS or not re.match(r"\w", w) else "N" if w[0].isdigit() else "x" for w in words)


def twins():
    groups = defaultdict(list)
    for f in functions():
        key = shape(f.body)
        if len(key.split()) > 25:
            groups[key].append(f"{f.path} {f.name}")
    for names in groups.values():
        if len(names) > 1:
            yield names[0].split()[0], "same shape: " + "; ".join(names)


def counted_loops():
    for f in functions():
        for m in re.finditer(r"(?m)^\s*while (.*) \{", f.body):
            if not m.group(1).startswith("let "):
                yield f.path, f"{f.name}: while {m.group(1)}"


def by_hand():
    for f in functions():
        arms = re.findall(r"=> (\w+),", f.body)
        if "-> bool" in f.head and "match" in f.body and len([a for a in arms if a in ("true", "false")]) > 1:
            yield f.path, f"{f.name}: a test by a match"
        elif re.search(r"match \w+ \{", f.body) and len(arms) > 3 and all(a.isdigit() for a in arms):
            yield f.path, f"{f.name}: a conversion by a match"
        elif re.search(r"(\w+)\.(\w+) == \w+\.\2\)?\s*\n?\s*& ", f.body):
            yield f.path, f"{f.name}: equality field by field"
        elif re.search(r"if (\w+)\[.*\] != (\w+)\[", f.body):
            yield f.path, f"{f.name}: equality element by element"
        elif re.search(r"\{\s*\w+ as u\d+\s*\}", f.body):
            yield f.path, f"{f.name}: a conversion"


def repeated_facts():
    facts, together = defaultdict(set), defaultdict(set)
    for f in functions():
        who = f"{f.path} {f.name}"
        for fact in f.requires():
            facts[fact].add(who)
        ps = f.parameters
        for i in range(len(ps) - 1):
            together[f"{ps[i]}, {ps[i + 1]}"].add(who)
    for fact, who in sorted(facts.items(), key=lambda x: -len(x[1])):
        if len(who) > 2:
            yield "requires", f"{len(who)} times: {fact}"
    for pair, who in sorted(together.items(), key=lambda x: -len(x[1])):
        if len(who) > 2:
            yield "parameters", f"{len(who)} times: {pair}"


def lengths_beside():
    for f in functions():
        text = ", ".join(f.parameters)
        for m in re.finditer(r"(\w+): (&mut )\[(\w+)\], (at|count|n|k|from|head): (usize|u64)", text):
            yield f.path, f"{f.name}: {m.group(1)} with {m.group(4)}"
        if re.search(r"(addresses|sites): &.*?places: &", text) or re.search(r"table: &.*?lengths: &", text):
            yield f.path, f"{f.name}: arrays side by side"
    for path, text in sources():
        for m in re.finditer(r"struct (\w+)[^{;]*\{", text):
            inside = braced(text, m.end() - 1)
            if re.search(r"\[\w+; \w+\]", inside) and "count" in inside:
                yield path, f"struct {m.group(1)}: an array with its count"


def switches():
    for f in functions():
        for m in re.finditer(r"match [\w.]+ \{", f.body):
            arms = re.findall(r"=> (?:\{ )?([\w:]+)\(([^()]*)\)", braced(f.body, m.end() - 1))
            calls = [(a, b) for a, b in arms if a[0].islower()]
            if len(calls) > 1 and len({a for a, _ in calls}) > 1 and len({b for _, b in calls}) == 1:
                yield f.path, f"{f.name}: {', '.join(a for a, _ in calls)}"


def answers():
    for path in sorted(ROOT.glob("crates/*/proofs/**/*.antt")):
        for m in re.finditer(r"(?m)^pub (\S+) : goal\.", path.read_text()):
            yield path.relative_to(ROOT / "crates"), m.group(1)


POINTS = [
    ("1 kinds, flags beside values, numbers for kinds", kinds),
    ("2 functions of one shape", twins),
    ("3 loops that count", counted_loops),
    ("4 tests, equalities and conversions by hand", by_hand),
    ("5 facts and parameters in three functions or more", repeated_facts),
    ("6 lengths beside buffers, arrays side by side", lengths_beside),
    ("7 switches between steps", switches),
    ("8 answers in proofs/", answers),
]

for title, places in POINTS:
    found = list(places())
    print(f"{title}: {len(found)}")
    if LISTED and places is not answers:
        for path, what in found:
            print(f"    {path}: {what}")
