#!/usr/bin/env python3
"""Lists the places in crates/*/src that a newer form of Rattle might serve better, point by point.

    python3 tools/places.py [CHECKOUT] [--count]

Each line is a place to look at and no verdict: docs/DESIGN-PASS.md says what became of each.
"""
import collections
import glob
import os
import re
import sys

args = [a for a in sys.argv[1:] if not a.startswith("--")]
top = args[0] if args else "."
files = sorted(glob.glob(os.path.join(top, "crates/*/src/**/*.rt"), recursive=True))
text = {os.path.relpath(f, top): open(f, encoding="utf-8").read() for f in files}


def code(line):
    """The line without its comment."""
    return re.sub(r"(^|\s)//.*", "", line)


def lines(pattern, skip=None):
    """The lines of code in which the pattern occurs."""
    for f, t in text.items():
        for k, line in enumerate(t.split("\n"), 1):
            c = code(line)
            if re.search(pattern, c) and not (skip and re.search(skip, c)):
                yield f"{f}:{k}", c.strip()


def functions():
    """Each function: its place, its name, its parameters, its clauses, its body."""
    head = re.compile(r"^( *)(?:pub(?:\(crate\))? )?(?:final )?fn (\w+)", re.M)
    for f, t in text.items():
        for m in head.finditer(t):
            rest = t[m.end():]
            stop = head.search(rest)
            rest = rest[:stop.start()] if stop else rest
            opening = rest.find("(")
            depth, end = 0, opening
            for end in range(opening, len(rest)):
                depth += {"(": 1, ")": -1}.get(rest[end], 0)
                if depth == 0:
                    break
            params = re.findall(r"(\w+):", re.sub(r"<[^<>]*>", "", rest[opening:end + 1]))
            brace = re.search(r"^ *\{|\{ *$", rest[end:], re.M)
            clauses = re.findall(r"^ *(requires|ensures)(?: \w+)? \{ (.*) \}\s*;?$", rest[:end + brace.start()] if brace else rest, re.M)
            line = t[:m.start()].count("\n") + 1
            yield f"{f}:{line}", m.group(2), params, clauses, rest[end + brace.start():] if brace else ""


def facts():
    """Facts that are required or ensured word for word by three functions or more."""
    where = collections.defaultdict(list)
    for place, name, _, clauses, _ in functions():
        for kind, clause in clauses:
            for part in re.split(r" × (?=\()", clause) if kind == "requires" else [clause]:
                part = re.sub(r"\b(old|new|now)\b", "_", part.strip())
                part = re.sub(r"^\((.*)\)$", r"\1", part)
                if re.search(r"≤|<|≡ true|length", part) and "result ≡" not in part:
                    where[part].append(f"{place} {name}")
    for part, places in sorted(where.items()):
        if len(places) >= 3:
            yield f"{len(places)} functions", part


def together():
    """Pairs of parameters that three functions or more take, and none of the crate takes apart from the other."""
    pairs = collections.Counter()
    alone = collections.Counter()
    for place, _, params, _, _ in functions():
        crate = place.split("/")[1]
        names = sorted(set(params))
        for a in names:
            alone[crate, a] += 1
        for i, a in enumerate(names):
            for b in names[i + 1:]:
                pairs[crate, a, b] += 1
    for (crate, a, b), n in sorted(pairs.items()):
        if n >= 3 and n >= 0.6 * max(alone[crate, a], alone[crate, b]):
            yield f"{crate}: {n} functions", f"{a}, {b}"


def twins():
    """Functions with the same body but for names, numbers and strings."""
    shape = collections.defaultdict(list)
    for place, name, _, _, body in functions():
        body = "\n".join(code(l) for l in body.split("\n"))
        bones = re.sub(r"\s+", " ", re.sub(r"\b(0x)?[0-9][0-9A-Fa-f_]*\b|\"[^\"]*\"", "0", body))
        if len(bones) > 60:
            shape[bones].append(f"{place} {name}")
    for places in shape.values():
        if len(places) > 1:
            yield places[0], " ~ ".join(places[1:])


POINTS = [
    ("1a own enums (those of the shape of Option or Result are picked by hand)", lambda: lines(r"^\s*(pub(\(crate\))? )?enum ")),
    ("1b flags in structs", lambda: lines(r"^\s+(pub(\(crate\))? )?\w+: bool,")),
    ("1c numbers that stand for a kind, a type, a layer or nothing", lambda: lines(r"const \w+: u8\b|\b255\b|\b(number|layer|code|t|kind|a|b): u8\b|\bnext: (usize|0)|heads: \[(usize|0)|-> (Result<)?(Option<)?u8\b|<Option<u8>")),
    ("1c' the same as kinds of frames, by their hexadecimal numbers", lambda: lines(r"\b0x[0-9A-F]{2}\b")),
    ("1d an error or a none that is handed on by a match", lambda: lines(r"Err\((\w+)\) => (return )?(Err|Outcome)\b|None => (return )?(None|Err)\b|return Err\(Fault::Posted")),
    ("2 functions with one body but for names and numbers", twins),
    ("3 loops with while, loop or a range", lambda: lines(r"^\s*(while |loop\b)|\bfor .* in .*\.\.")),
    ("4 conversions, comparisons and printing by hand", lambda: lines(r"fn (number|diagnostic|type_code|type_of|as_type|differs|violation_number|fmt|eq|ne|cmp|clone|to_\w+|from_\w+)\b|write!\(f,")),
    ("5a facts in three contracts or more", facts),
    ("5b parameters that travel together", together),
    ("6 buffers with a length beside, and arrays", lambda: lines(r"^\s+(pub(\(crate\))? )?\w+: \[[^]]+; *\w+\],|vec!\[in \w+(\.\w+\(\))?; 0u8")),
    ("7 tables of functions, function pointers, dyn", lambda: lines(r"\bdyn\b|: fn\(|\[fn\(|Box<")),
]

for title, find in POINTS:
    found = list(find())
    print(f"{title}: {len(found)}")
    if "--count" not in sys.argv:
        for place, what in found:
            print(f"    {place}  {what}")
