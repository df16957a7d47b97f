#!/usr/bin/env python3
"""Respells the repository's own names as today's Rattle spells them: definitions and the words of lemmas in snake case.

tools/port_names.py, once, at the top, after port.py. The words and their new spelling stand in tools/port_names.txt, a pair a
line. A word is a part of a name between hyphens. Names of src/ and exported names are in snake case already.
"""
import glob
import os
import re

here = os.path.dirname(os.path.abspath(__file__))
pairs = dict(line.split() for line in open(os.path.join(here, "port_names.txt"), encoding="utf-8"))
word = re.compile(r"[A-Za-z_][A-Za-z0-9_'·]*")

# names with a hyphen that are fields or constructors, or that would fall together with a new spelling: the whole name, in one crate
whole = {
    "run": {
        "blocked-by": "blocked_by",
        "closed-by": "closed_by",
        "marked-once": "marked_once",
        "stays-marked": "stays_marked",
        "at-end": "at_end",
        "all-along": "all_along",
    },
    "segments": {"many-q": "many_q", "many-l": "many_l"},
    "lines": {"with_first": "with_first-head"},
    "exact": {"root_by": "root_by-is_root"},
}
name = re.compile(r"[A-Za-z_][A-Za-z0-9_'·-]*")


def respelled(text, crate):
    names = whole.get(crate, {})
    if names:
        text = name.sub(lambda m: names.get(m.group(0), m.group(0)), text)
    return word.sub(lambda m: pairs.get(m.group(0), m.group(0)), text)


def files():
    for pattern in ("specs/**/*.antt", "proofs/**/*.antt", "src/**/*.rt", "must-fail/*.edit"):
        yield from glob.glob("crates/*/" + pattern, recursive=True)
    yield from glob.glob("docs/*.md")
    yield from glob.glob("compare/**/*.txt", recursive=True)
    yield from glob.glob("bench/**/*.txt", recursive=True)
    yield "README.md"


for path in sorted(files()):
    if path.startswith("docs/PORT"):
        continue
    with open(path, encoding="utf-8") as f:
        before = f.read()
    after = respelled(before, path.split("/")[1] if path.startswith("crates/") else "")
    if after != before:
        with open(path, "w", encoding="utf-8") as f:
            f.write(after)
