#!/usr/bin/env python3
"""edits_fit.py: each must-fail edit whose text does not stand once in its file. Run it at the top of the repository."""
import glob
import os
import re
import sys


def pairs(text):
    at = None
    for line in text.split("\n"):
        m = re.match(r"(file|old|new): ?(.*)$", line)
        if not m:
            continue
        if m.group(1) == "file":
            at = m.group(2).strip()
        elif m.group(1) == "old":
            old = m.group(2)
        else:
            yield at, old, m.group(2)


def main():
    bad = 0
    for path in sorted(glob.glob("crates/*/must-fail/*.edit")):
        with open(path, encoding="utf-8") as handle:
            text = handle.read()
        crate = path.split("/")[1]
        made = {}
        for name, old, new in pairs(text):
            source = f"crates/{crate}/{name}"
            if source not in made:
                if not os.path.exists(source):
                    print(f"{path}: no {source}")
                    bad += 1
                    continue
                with open(source, encoding="utf-8") as handle:
                    made[source] = handle.read()
            count = made[source].count(old)
            if count != 1:
                print(f"{path}: {count} times in {name}: {old}")
                bad += 1
            made[source] = made[source].replace(old, new, 1)
    print(f"{bad} bad")
    return bad != 0


sys.exit(main())
