#!/usr/bin/env python3
"""Respells the repository's own definitions and lemmas as today's Rattle does: words in snake case, types and modules in camel case.

usage: python3 tools/snake_names.py [--list]      at the top of the repository, once, after the kit's port.py; --list only prints what it would do

A name of specs/ and proofs/ that begins with a small letter and has a capital in a part (parts are joined by dashes) gets underscores in place of the capitals, as
planCheck -> plan_check and withBit-past -> with_bit-past, wherever it stands as a whole word: in .antt and .rt files, in must-fail edits, in tests/weaker and on the pages.
A word of Rust source in camel case is a type, and begins with a capital: none is touched. A line 'look:' names a new spelling that stands already.
"""
import os
import re
import subprocess
import sys

# Lemmas that port.py gave underscores for dashes: with the definitions respelled they would fall together with them.
LEMMAS = {"some_below": "some-below", "listed_in": "listed-in", "count_at": "count-at"}

WORD = re.compile(r"[A-Za-z_][A-Za-z0-9_'₀₁₂₃₄]*(?:-[A-Za-z0-9_'₀₁₂₃₄]+)*-?")


def snake(part):
    if not re.match(r"[a-z]", part) or not re.search(r"[a-z0-9][A-Z]", part):
        return part
    return re.sub(r"([a-z0-9])([A-Z])", lambda m: m.group(1) + "_" + m.group(2).lower(), part)


def new_name(name):
    return "-".join(snake(p) for p in name.split("-"))


def files(*suffixes):
    out = subprocess.run(["git", "ls-files", "-z"], capture_output=True, text=True, check=True).stdout.split("\0")
    return [f for f in out if f.endswith(suffixes) and os.path.isfile(f)]


def main():
    names = set()
    for f in files(".antt"):
        for w in WORD.findall(open(f, encoding="utf-8").read()):
            w = w.rstrip("-")
            if re.match(r"[a-z]", w) and new_name(w) != w:
                names.add(w)
    known = set()
    for f in files(".antt", ".rt"):
        known |= set(WORD.findall(open(f, encoding="utf-8").read()))
    for w in sorted(names):
        n = new_name(w)
        if n in known:
            print(f"look: {w} -> {n}: this word stands already")
    if "--list" in sys.argv:
        for w in sorted(names):
            print(w, "->", new_name(w))
        return
    parts = {}
    for w in names:
        for p in w.split("-"):
            if snake(p) != p:
                parts[p] = snake(p)

    def turn(m):
        w = m.group(0)
        tail = "-" if w.endswith("-") else ""
        body = w[:-1] if tail else w
        if f.endswith(".antt") and body in LEMMAS:
            return LEMMAS[body] + tail
        if not re.match(r"[a-z]", body):
            return w
        return "-".join(parts.get(p, p) for p in body.split("-")) + tail

    pages = [f for f in files(".md", ".edit", ".sh", ".txt") if not f.startswith("docs/PORT")]
    changed = 0
    for f in files(".antt", ".rt") + pages:
        text = open(f, encoding="utf-8").read()
        new = WORD.sub(turn, text)
        if new != text:
            open(f, "w", encoding="utf-8").write(new)
            changed += 1
    print(f"{len(names)} names in {changed} files")


main()
