#!/usr/bin/env python3
"""Respells the definitions and lemmas of this repository, as today's Rattle spells its own: facts and records in upper camel
case, all other names in snake case. To be run once, right after the kit's port.py, at the top of the repository.

It turns names that are declared in specs/ and proofs/ below crates/, wherever they stand in proofs, specs and clauses.
It turns code spans of README.md and docs/ too. Functions of src/, strings, comments and what Rattle or its library names keep their spelling.

usage: port_names.py [--dry]
"""
import os
import re
import sys

WORD = r"[^\s(){}.;,@\"«»:|·]+"
DECLARED = re.compile(rf"\s*(?:\| )?((?:(?:abbrev|pub|unfoldable|data|record) )*)({WORD})((?: [({{][^)}}]*[)}}])*) :(?!:)(.*)")
TOKEN = re.compile(r"(?<![^\s(){}.;,@«»:λ])[^\s(){}.;,@\"«»:|·]*[^\s(){}.;,@\"«»:|·\-]-[^\s(){}.;,@\"«»:|·\-][^\s(){}.;,@\"«»:|·]*")
GENERATED = re.compile(r"goal\.")
LIBRARY = re.compile(r"\buse (?:Rattle\.std|lib|native|mathlib|Prim|mir|denote|borrow)\b[^\n]*")

# Where the plain respelling would fall together with another name that the same text uses.
OTHERWISE = {
    "behind-head": "after_head",
    "bit-xor": "bit_of_xor",
    "call-of": "call_of_request",
    "next-cut": "next_stretch",
    "read-line": "line_call",
    "report-fields": "fields_of_report",
    "with-digit": "number_with_digit",
}


def files(*suffixes):
    for folder, dirs, names in os.walk("crates"):
        dirs[:] = sorted(d for d in dirs if d not in ("out", "target"))
        for name in sorted(names):
            if name.endswith(suffixes):
                yield os.path.join(folder, name)


def text_of(path):
    with open(path, encoding="utf-8") as f:
        return f.read()


def respelled(name):
    if name in OTHERWISE:
        return OTHERWISE[name]
    if name[0].isupper():
        first, *more = re.split("-", name)
        return first + "".join(part[:1].upper() + part[1:] for part in more)
    return name.replace("-", "_")


def declared():
    """Own names with a dash, those apart that answer a goal under the name that Rattle gave it."""
    own, generated = set(), set()
    for path in files(".antt"):
        for line in text_of(path).split("\n"):
            if line.lstrip().startswith("--"):
                continue
            m = DECLARED.match(line.split(" -- ")[0])
            if m and "-" in m[2].strip("-"):
                (generated if GENERATED.search(m[4]) else own).add(m[2])
    return own - generated


def turned(text, table):
    return TOKEN.sub(lambda m: table.get(m[0], m[0]), text)


def turned_code(line, table):
    """A line of a definition or proof: no comment, no string, no import from the library."""
    if line.lstrip().startswith("--") or LIBRARY.match(line):
        return line
    code, dash, comment = line.partition(" -- ")
    parts = re.split(r'("(?:[^"\\]|\\.)*")', code)
    return "".join(p if p.startswith('"') else turned(p, table) for p in parts) + dash + comment


RUST = re.compile(r'(//[^\n]*|b?"(?:[^"\\]|\\.)*"|ghost use Rattle\.std[^;]*;)', re.S)


def turned_rust(text, table):
    return "".join(p if RUST.fullmatch(p) else turned(p, table) for p in RUST.split(text))


def written(path, old, new):
    if new != old and "--dry" not in sys.argv:
        with open(path, "w", encoding="utf-8") as f:
            f.write(new)
    return new != old


def main():
    table = {name: respelled(name) for name in declared()}
    changed = 0
    for path in files(".antt", ".rt"):
        old = text_of(path)
        if path.endswith(".antt"):
            new = "\n".join(turned_code(line, table) for line in old.split("\n"))
        else:
            new = turned_rust(old, table)
        changed += written(path, old, new)
    for path in ["README.md"] + [os.path.join("docs", name) for name in sorted(os.listdir("docs"))]:
        old = text_of(path)
        changed += written(path, old, re.sub(r"`[^`\n]*`", lambda m: "`" + turned(m[0][1:-1], table) + "`", old))
    print(f"{len(table)} names, {changed} files")
    if "--dry" in sys.argv:
        for name in sorted(table):
            print(f"{name}\t{table[name]}")


if __name__ == "__main__":
    main()
