#!/usr/bin/env python3
"""Spells the repository's own definitions and lemmas in snake case, by names.tsv beside this script: old name, tab, new name.

usage: tools/rename.py      at the top of the repository, once, after the library's own names are in their new spelling

Whole names alone turn: in specs, proofs, clauses and must-fail edits, in comments too, and in the code spans of README and docs/.
"""

import pathlib
import re

NAME = re.compile(r"[^\s(){}\[\].,;:@\"`«»|]+")
SPAN = re.compile(r"`[^`\n]*`")


def main():
    here = pathlib.Path(__file__).resolve().parent
    rows = dict(line.split("\t") for line in (here / "names.tsv").read_text().splitlines())

    def turned(text):
        return NAME.sub(lambda m: rows.get(m.group(), m.group()), text)

    top = here.parent
    files = [f for kind in ("*.antt", "*.rt", "*.edit") for f in sorted((top / "crates").rglob(kind))]
    pages = [top / "README.md", *sorted((top / "docs").rglob("*.md"))]
    for file in files + pages:
        old = file.read_text()
        new = SPAN.sub(lambda m: turned(m.group()), old) if file in pages else turned(old)
        if new != old:
            file.write_text(new)


main()
