#!/usr/bin/env python3
"""The table of docs/DESIGN-PASS.md from tools/design_places.tsv: for each point the places found, changed, kept and open.

tools/design_places.py [--crates | --check]: with --crates a row for each crate and point too; with --check it fails where a
place is kept without a reason, or has another state than open, changed or kept.
"""
import collections
import os
import sys

here = os.path.dirname(os.path.abspath(__file__))
rows = [line.rstrip("\n").split("\t") for line in open(os.path.join(here, "design_places.tsv"), encoding="utf-8")][1:]
bad = [r for r in rows if len(r) != 8 or r[6] not in ("open", "changed", "kept") or (r[6] == "kept" and not r[7])]
if "--check" in sys.argv:
    for r in bad:
        print("\t".join(r))
    sys.exit(1 if bad else 0)


def table(title, key):
    count = collections.Counter()
    for r in rows:
        for state in (r[6], "found"):
            count[key(r), state] += 1
    print(f"| {title} | Found | Changed | Kept with a reason | Still to do |")
    print("|---|---|---|---|---|")
    for k in sorted({key(r) for r in rows}):
        print("| " + k + " | " + " | ".join(str(count[k, s]) for s in ("found", "changed", "kept", "open")) + " |")


table("Point", lambda r: r[0])
if "--crates" in sys.argv:
    print()
    table("Crate", lambda r: r[1])
