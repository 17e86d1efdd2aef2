#!/usr/bin/env python3
"""Brings the repository's own definitions and lemmas to Rattle's spelling: words in snake case, types in camel case.

usage: tools/respell.py [ROOT]          once, after /opt/rattle/port/port.py and before any edit by hand
       tools/respell.py --names [ROOT]  prints the table of names, and those that fall together; writes nothing

A name is one that a file of specs/ or a lemma file of proofs/ defines with hyphens in it: a-name becomes a_name, and A-name, a type, AName.
It is turned where it stands as a word of its own: in .antt files, in the clauses and ghost items of .rt files, and between backticks in
comments and pages. After a dot it is turned where it is a field of a record of the repository, or where a module stands before the dot: the names that
Rattle makes for goals and calls keep theirs.
"""
import glob
import os
import re
import sys

# a word of antt, whatever signs it has
WORD = r"[^\s(){}\[\],;.`\"]+"
KEYWORD = r"(?:pub|abbrev|unfoldable|data|record|mutual|let|private|where)"
DEFINED = re.compile(rf"^\s*((?:{KEYWORD}\s+)*)({WORD})(?=[\s({{]|$)")
SEVERAL = re.compile(rf"^\s*(?:{KEYWORD}\s+)*({WORD}(?:\s+{WORD})+)\s+:\s")
SPELT = re.compile(r"^[^\W\d_][\w'₀-₉]*(-[\w'₀-₉≢≡]+)+$")


def lemma_files(root):
    return sorted(glob.glob(f"{root}/crates/*/specs/*.antt") + glob.glob(f"{root}/crates/*/proofs/*.antt"))


def all_antt(root):
    return sorted(p for p in glob.glob(f"{root}/crates/*/specs/**/*.antt", recursive=True) + glob.glob(f"{root}/crates/*/proofs/**/*.antt", recursive=True))


def definitions(root):
    """The hyphenated names that are defined, and those among them that are fields of a record."""
    names, fields = set(), set()
    for path in sorted(glob.glob(f"{root}/crates/*/src/**/*.rt", recursive=True)):
        for item in re.findall(r"^ghost use [^;]*;", open(path, encoding="utf-8").read(), re.M):
            names.update(w for w in re.findall(rf"\bas\s+({WORD})", item) if SPELT.match(w))
    for path in lemma_files(root):
        inside = False
        for line in open(path, encoding="utf-8"):
            bare = line.split("--")[0].rstrip() if line.lstrip().startswith("--") else line.rstrip()
            if not bare.strip():
                continue
            if not bare[0].isspace():
                inside = bool(re.match(r"(?:pub\s+)?record\s", bare))
            names.update(w for w in re.findall(rf"\bas\s+({WORD})", bare) if SPELT.match(w))
            several = SEVERAL.match(bare)
            if several:
                names.update(w for w in several.group(1).split() if SPELT.match(w))
            m = DEFINED.match(bare)
            if not m or not SPELT.match(m.group(2)):
                continue
            rest = bare[m.end():]
            if re.match(r"\s*:(\s|$)", rest) or re.search(r"\b(data|record|let|abbrev|unfoldable)\b", m.group(1)):
                names.add(m.group(2))
                if inside and bare[0].isspace():
                    fields.add(m.group(2))
    return names, fields


def respelt(name):
    parts = name.split("-")
    if name[0].isupper():
        return "".join(p[:1].upper() + p[1:] for p in parts)
    return "_".join(parts)


def turned(text, table, fields, aliases):
    """The text with each name of the table turned, where it stands as a word of its own."""

    def one(m):
        word = m.group(0)
        if word not in table:
            return word
        before = text[: m.start()]
        if before.endswith("."):
            prefix = re.search(rf"({WORD})\.$", before)
            if not ((prefix and prefix.group(1) in aliases) or word in fields or "Rattle." in (re.search(r"\S*$", before).group(0))):
                return word
        return table[word]

    return re.sub(WORD, one, text)


def in_comment(text, table):
    return re.sub(r"`[^`\n]+`", lambda m: "`" + re.sub(WORD, lambda w: table.get(w.group(0), w.group(0)), m.group(0)[1:-1]) + "`", text)


def aliases_of(text):
    """The modules that a file names: by an alias, or by the last part of a path with no braces."""
    found = set(re.findall(r"\bas\s+(\w+)", text)) | set(re.findall(r"^use\s+[\w.«»]*\.(\w+)\s*$", text, re.M))
    return found - set(re.findall(r"\.Goals\s+as\s+(\w+)", text))


def antt(text, table, fields):
    aliases = aliases_of(text)
    out = []
    for line in text.split("\n"):
        code, dashes, comment = line.partition("--") if re.match(r"\s*--", line) else (line, "", "")
        out.append(turned(code, table, fields, aliases) + dashes + in_comment(comment, table))
    return "\n".join(out)


def source(text, table, fields):
    """A .rt file: comments by their backticks, strings as they are, and the rest word by word: no name of the code has a hyphen."""
    aliases = aliases_of(text)
    out = []
    for line in text.split("\n"):
        if re.match(r"\s*//", line):
            out.append(in_comment(line, table))
            continue
        parts = re.split(r'("(?:[^"\\]|\\.)*")', line)
        out.append("".join(p if k % 2 else turned(p, table, fields, aliases) for k, p in enumerate(parts)))
    return "\n".join(out)


def words(root):
    found = {}
    for path in all_antt(root) + sorted(glob.glob(f"{root}/crates/*/src/**/*.rt", recursive=True)):
        for w in set(re.findall(WORD, open(path, encoding="utf-8").read())):
            found.setdefault(w, []).append(path)
    return found


def main(argv):
    show = "--names" in argv
    rest = [a for a in argv if a != "--names"]
    root = rest[0] if rest else "."
    names, fields = definitions(root)
    table = {n: respelt(n) for n in sorted(names)}
    if show:
        new = {}
        for a, b in table.items():
            new.setdefault(b, []).append(a)
        there = words(root)
        for a, b in table.items():
            print(f"{a} {b}")
        for b, olds in new.items():
            if len(olds) > 1:
                print(f"together: {b} <- {olds}")
            if b in there:
                print(f"there: {b} in {len(there[b])} files: {there[b][:3]}")
        return 0
    n = 0
    files = [(p, antt) for p in all_antt(root)] + [(p, source) for p in sorted(glob.glob(f"{root}/crates/*/src/**/*.rt", recursive=True))]
    files += [(p, lambda t, table, fields: in_comment(t, table)) for p in sorted(glob.glob(f"{root}/docs/*.md")) + [f"{root}/README.md"] if os.path.exists(p)]
    for path, turn in files:
        old = open(path, encoding="utf-8").read()
        new = turn(old, table, fields)
        if new != old:
            n += 1
            open(path, "w", encoding="utf-8").write(new)
    print(f"respell: {len(table)} names, {n} files")
    return 0


if __name__ == "__main__":
    sys.exit(main(sys.argv[1:]))
