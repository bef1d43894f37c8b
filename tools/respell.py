#!/usr/bin/env python3
"""Brings this repository's own definitions and lemmas to the spelling of today's Rattle.

usage: python3 tools/respell.py [--list]     at the top of the repository, once, right after port.py

Definitions, lemmas, record fields and constructors of specs/ and proofs/ get names in snake case, and types
(a name that begins with a capital) names in upper camel case. Functions, types and fields of src/, strings,
inputs and outputs keep theirs. Names that Rattle makes, as those of goals, are left alone.
With --list it writes nothing, and prints each old name beside the new one.
"""

import os
import re
import sys

ROOT = os.path.join(os.path.dirname(os.path.realpath(__file__)), "..", "crates")
# one antt name: no white space, no bracket, no separator
NAME = re.compile(r"[A-Za-z_][\w'\-+*/<>≤≡∷ℕℤ′]*")
DECLARED = re.compile(r"^(?:(?:abbrev|unfoldable|pub) )*(?:(data|record) )?([A-Za-z][^\s:(){}\[\];,.]*)\s[^=]*?:(?:\s|$)")
FIELD = re.compile(r"^\s+(?:pub\s+)?([a-z][^\s:(){}\[\];,.=]*)\s+:(?:\s|$)")
GOAL = re.compile(r":\s+goal\.")
CLAUSE = re.compile(r"\b(?:requires|ensures|ghost)\b\*?[^{;\n]*\{")

# Lemmas that would fall together with the definition they speak of: named by what they equate, or with _lem behind.
APART = {
    "adopted-at": "length-adopted_at",
    "item-at": "item_at-one",
    "item_from": "item_from-one",
    "word-bytes": "word_bytes-word_of",
    "first-with": "first_with_lem",
}


def files(*endings):
    for folder, dirs, names in os.walk(ROOT):
        dirs[:] = sorted(d for d in dirs if d not in ("out", "target"))
        for name in sorted(names):
            if name.endswith(endings):
                yield os.path.join(folder, name)


def read(path):
    with open(path, encoding="utf-8") as f:
        return f.read()


def respelt(name):
    if name in APART:
        return APART[name]
    if name[0].isupper():
        return "".join(w[:1].upper() + w[1:] for w in name.split("-"))
    words = re.sub(r"(?<=[a-z0-9])([A-Z])", lambda m: "_" + m.group(1).lower(), name)
    return words.replace("-", "_").replace("′", "'")


def declared():
    """The names that specs/ and proofs/ declare: of definitions, lemmas and types, and of fields and constructors."""
    tops, fields = {}, {}
    for path in files(".antt"):
        inside = None
        for line in read(path).splitlines():
            if line.startswith("--") or GOAL.search(line):
                continue
            if re.match(r"((abbrev |unfoldable |pub )*mutual|module)\b", line):
                inside = tops
                continue
            m = DECLARED.match(line)
            if m:
                tops.setdefault(m.group(2), set()).add(path)
                inside = fields if m.group(1) else None
                continue
            m = FIELD.match(line)
            if m and inside is not None:
                inside.setdefault(m.group(1), set()).add(path)
            elif line and not line[0].isspace():
                inside = None
    return tops, fields


def crate(path):
    return os.path.relpath(path, ROOT).split(os.sep)[0]


def turned(names):
    return {n: respelt(n) for n in names if respelt(n) != n}


def turn(text, tops, fields):
    """A text of antt with its names turned: after a dot only a field's, but for the parts of a module's path."""
    out, at = [], 0
    for m in NAME.finditer(text):
        if m.start() < at:
            continue
        word = m.group()
        before = text[m.start() - 1] if m.start() else ""
        new = word
        if before == ".":
            head = re.search(r"[^\s(){}\[\];,]*$", text[: m.start()]).group()
            new = tops.get(word, word) if head.startswith("Rattle.") else fields.get(word, word)
        else:
            new = tops.get(word, fields.get(word, word))
        out.append(text[at : m.start()])
        out.append(new)
        at = m.end()
    out.append(text[at:])
    return "".join(out)


def code(text, change):
    """A source text with its clauses and ghost lines turned."""
    out, at = [], 0
    while True:
        use = re.compile(r"^ghost use [^;]*;", re.M).search(text, at)
        clause = CLAUSE.search(text, at)
        first = min((m for m in (use, clause) if m), key=lambda m: m.start(), default=None)
        if first is None:
            return "".join(out) + text[at:]
        if first is use:
            end = use.end()
        else:
            depth, end = 1, clause.end()
            while depth:
                depth += {"{": 1, "}": -1}.get(text[end], 0)
                end += 1
        out.append(text[at : first.start()])
        out.append(change(text[first.start() : end]))
        at = end


def main(argv):
    tops, fields = declared()
    new_tops, new_fields = turned(tops), turned(fields)
    if "--list" in argv:
        for old, new in sorted(new_tops.items()):
            print(old, new)
        for old, new in sorted(new_fields.items()):
            print("." + old, "." + new)
    bad = 0
    for kind, names, new_names in (("names", tops, new_tops), ("fields", fields, new_fields)):
        for old, new in sorted(new_names.items()):
            also = [n for n in names if n != old and new_names.get(n, n) == new]
            here = set().union(*(names[n] for n in also)) if also else set()
            if also and (here & names[old] or {crate(p) for p in here} & {crate(p) for p in names[old]}):
                bad += 1
                print(f"fall together: {kind}: {old} and {also} as {new}: {sorted(names[old])[:2]}, {[sorted(names[n])[:2] for n in also]}", file=sys.stderr)
    if "--list" in argv:
        return 0
    if bad:
        return 1
    change = lambda t: turn(t, new_tops, new_fields)
    for path in files(".antt"):
        text = read(path)
        new = "\n".join(l if l.lstrip().startswith("--") else change(l) for l in text.split("\n"))
        if new != text:
            with open(path, "w", encoding="utf-8") as f:
                f.write(new)
    for path in files(".rt"):
        text = read(path)
        new = code(text, change)
        if new != text:
            with open(path, "w", encoding="utf-8") as f:
                f.write(new)
    return 0


if __name__ == "__main__":
    raise SystemExit(main(sys.argv[1:]))
