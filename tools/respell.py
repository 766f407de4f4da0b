#!/usr/bin/env python3
"""Respells this repository's own definitions and lemmas: words in snake case, types in camel case.

usage: python3 tools/respell.py            at the top of the repository

own_names.txt beside this script has a line for each name: the old one and the new one. Names are turned whole, in specs/, proofs/, src/
and the must-fail edits of every crate, and between backticks in README.md and docs/, but for the pages about the move itself. Names that Rattle
makes, names of src/ and strings are not in that list.
"""

import glob
import os
import re

NAME = re.compile(r"(?<![\w'-])[A-Za-z_][\w']*(?:-[\w']+)*")
TABLE = re.compile(r"^(--   )(\S+(?:, \S+)*)(\s\s+)(.*)$")


def names():
    with open(os.path.join(os.path.dirname(os.path.realpath(__file__)), "own_names.txt"), encoding="utf-8") as f:
        return dict(line.split() for line in f)


def turned(text, new):
    return NAME.sub(lambda m: new.get(m.group(0), m.group(0)), text)


def line_turned(line, new):
    """A line of a table of words keeps its second column where it was, as far as there is room."""
    row = TABLE.match(line)
    if not row:
        return turned(line, new)
    words = turned(row.group(2), new)
    room = len(row.group(2)) + len(row.group(3)) - len(words)
    return row.group(1) + words + " " * max(room, 2) + turned(row.group(4), new)


def main():
    new = names()
    paths = [p for kind in ("specs/**/*.antt", "proofs/**/*.antt", "src/**/*.rt", "must-fail/*.edit") for p in glob.glob("crates/*/" + kind, recursive=True)]
    for path in sorted(paths):
        with open(path, encoding="utf-8") as f:
            text = f.read()
        after = "\n".join(line_turned(line, new) for line in text.split("\n"))
        if after != text:
            with open(path, "w", encoding="utf-8") as f:
                f.write(after)
    pages = [p for p in sorted(glob.glob("docs/*.md")) if not os.path.basename(p).startswith("PORT")]
    for path in ["README.md", *pages]:
        with open(path, encoding="utf-8") as f:
            text = f.read()
        after = re.sub(r"`[^`\n]*`", lambda m: turned(m.group(0), new), text)
        if after != text:
            with open(path, "w", encoding="utf-8") as f:
                f.write(after)


if __name__ == "__main__":
    main()
