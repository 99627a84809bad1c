#!/usr/bin/env python3
"""port_names.py [--check] FOLDER..: brings the repository's own names in antt to today's spelling, after port.py.

A definition, a lemma, a field or a variable in camel case becomes snake case (`takeUpTo`, `take_up_to`), part by part where a dash joins
names; `getD` in the name of a lemma is `get_or`. A field of a record has no dash (`issues-most`, `issues_most`). Types and modules keep
their capital. Names of functions, types and constants of src/ have no such spelling, so they stay. It goes through .antt and .rt files,
must-fail edits, and the documents that name definitions.
--check writes nothing, and prints each name that another name of the same file would fall together with.
"""
import os
import re
import sys

WORD = re.compile(r"(?<![\w'-])[a-zα-ω][\w'₀-₉]*(?:-[\w'₀-₉]+)*")
SKIPPED = {"out", ".git", "target", "data"}
# names that would fall together with another of their file
APART = {"noLine": "no_line_entry", "noMatch": "no_match_entry"}
FIELDS = set()


def part(word):
    if word == "getD":
        return "get_or"
    if word[:1].islower() and re.search(r"[a-z0-9][A-Z]", word):
        return re.sub(r"(?<=[a-z0-9])([A-Z])", lambda m: "_" + m.group(1).lower(), word)
    return word


def turned(word):
    if word in APART:
        return APART[word]
    joint = "_" if word in FIELDS else "-"
    return joint.join(part(p) for p in word.split("-"))


def fields(text):
    """The names with a dash of the fields of the records that a file declares."""
    depth = None
    for line in text.split("\n"):
        indent = len(line) - len(line.lstrip())
        if line.strip() and depth is not None and indent <= depth:
            depth = None
        if re.match(r"\s*(pub )?record \w", line):
            depth = indent
        field = re.match(r"\s+(?:pub )?([a-z][\w'₀-₉]*(?:-[\w'₀-₉]+)+) :", line)
        if depth is not None and field:
            yield field.group(1)


def files(folders):
    for folder in folders:
        if os.path.isfile(folder):
            yield folder
        for base, names, found in os.walk(folder):
            names[:] = sorted(n for n in names if n not in SKIPPED)
            for name in sorted(found):
                if name.endswith((".antt", ".rt", ".edit", ".md")):
                    yield os.path.join(base, name)


def main():
    check = "--check" in sys.argv
    folders = [a for a in sys.argv[1:] if not a.startswith("--")] or ["crates"]
    for path in files(["crates"]):
        if path.endswith(".antt"):
            with open(path, encoding="utf-8") as handle:
                FIELDS.update(fields(handle.read()))
    count = 0
    for path in files(folders):
        with open(path, encoding="utf-8") as handle:
            text = handle.read()
        words = set(WORD.findall(text))
        for word in sorted(words):
            if turned(word) != word and turned(word) in words:
                print(f"{path}: {word} falls together with {turned(word)}")
        new = WORD.sub(lambda m: turned(m.group(0)), text)
        if new != text:
            count += 1
            if not check:
                with open(path, "w", encoding="utf-8") as handle:
                    handle.write(new)
    print(f"{count} files")


if __name__ == "__main__":
    main()
