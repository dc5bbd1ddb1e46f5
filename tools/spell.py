#!/usr/bin/env python3
"""Spells the repository's own definitions and lemmas as today's Rattle does: words in snake case, types in camel case.

Run once at the top of the checkout, after the kit's port.py. The table is spelling.txt beside this file. A name with
capitals is turned wherever it stands in the sources, specifications, proofs and edits. A name with a dash is turned in
the .antt files alone, outside comments, where English words also have dashes. Functions of src/, exported names, strings,
inputs and outputs have neither form, so they stay.
"""

import pathlib
import re

TOP = pathlib.Path(__file__).resolve().parent.parent

# A lemma that would fall together with the definition that it is about, in the two files that speak of it.
LEMMA_APART = ["crates/listing/proofs/Written.antt", "crates/listing/proofs/lines/Lines/step_row/Answers.antt"]


def table():
    pairs = {}
    for line in (TOP / "tools/spelling.txt").read_text().splitlines():
        if line and not line.startswith("#"):
            old, new = line.split()
            pairs[old] = new
    return pairs


def turner(pairs):
    names = "|".join(sorted(map(re.escape, pairs), key=len, reverse=True))
    form = re.compile(rf"(?<![\w'-])(?:{names})(?![\w'-])")
    return lambda text: form.sub(lambda m: pairs[m[0]], text)


def outside_comments(turn, text):
    lines = []
    for line in text.split("\n"):
        at = line.find("--")
        lines.append(turn(line) if at < 0 else turn(line[:at]) + line[at:])
    return "\n".join(lines)


def main():
    pairs = table()
    capitals = turner({old: new for old, new in pairs.items() if re.search("[a-z][A-Z]", old)})
    dashes = turner({old: new for old, new in pairs.items() if not re.search("[a-z][A-Z]", old)})
    for name in LEMMA_APART:
        path = TOP / name
        if path.exists():
            path.write_text(re.sub(r"(?<![\w.'-])step_row(?![\w.'-])", "step_row_lem", path.read_text()))
    for path in sorted((TOP / "crates").rglob("*")) + sorted((TOP / "edits").rglob("*")) + sorted((TOP / "misuse").rglob("*")):
        if path.suffix not in (".rt", ".antt", ".edit") or "out" in path.parts:
            continue
        old = path.read_text()
        new = capitals(old)
        if path.suffix == ".antt":
            new = outside_comments(dashes, new)
        if new != old:
            path.write_text(new)


main()
