#!/usr/bin/env python3
"""Brings the names of this repository's own definitions and lemmas to the library's spelling: words in snake case, types in camel case.

usage: python3 tools/respell.py    at the top of the repository, once, right behind port.py

The names and what becomes of them stand in tools/respelled.txt, a pair a line. A pair is applied to whole names alone: in .antt files, in
the clauses of .rt files, in the edits of must-fail/, and between backticks in the documents. In comments only what no sentence can hold
is touched: names between backticks, names in camel case, and a name that begins an indented comment. Rust names, strings and outputs stay.
"""
import glob
import os
import re

HERE = os.path.dirname(os.path.abspath(__file__))
NAME = re.compile(r"(?<![\w'-])[A-Za-z_][\w'-]*")
CAMEL = re.compile(r"[a-z][a-z0-9]*[A-Z][\w']*")
WITHIN_TICKS = re.compile(r"`[^`\n]*`")
FIRST_INDENTED = re.compile(r"^(\s+-- |\s*--\s{2,})([a-z][\w'-]*)(?=( |,|$))")


def renamed(text, names):
    return NAME.sub(lambda m: names.get(m[0], m[0]), text)


def within_ticks(text, names):
    return WITHIN_TICKS.sub(lambda m: renamed(m[0], names), text)


def lines(text, mark, names):
    """A text of code, line by line: its code, and of its comments what the first lines above name."""
    camel = {a: b for a, b in names.items() if CAMEL.fullmatch(a)}
    out = []
    for line in text.split("\n"):
        m = re.search(r"(^|\s)" + mark + r"(\s|$)", line)
        code, comment = (line[: m.start()], line[m.start() :]) if m else (line, "")
        comment = FIRST_INDENTED.sub(lambda m: m[1] + names.get(m[2], m[2]), within_ticks(comment, names))
        out.append(renamed(code, names) + renamed(comment, camel))
    return "\n".join(out)


def antt(text, names):
    return lines(text, "--", names)


def rt(text, names):
    # a Rust name has no dash and no capital behind a small letter, so only clauses are met
    return lines(text, "//", {a: b for a, b in names.items() if "-" in a or CAMEL.fullmatch(a)})


def edit(text, names):
    turn = rt if re.search(r"^file: *src/", text, re.M) else antt
    return re.sub(r"(?m)^((?:old|new):)(.*)$", lambda m: m[1] + turn(m[2], names), text)


KINDS = [
    ("crates/*/specs/**/*.antt", antt),
    ("crates/*/proofs/**/*.antt", antt),
    ("crates/*/src/**/*.rt", rt),
    ("crates/*/must-fail/*.edit", edit),
    ("docs/**/*.md", within_ticks),
    ("README.md", within_ticks),
    ("examples/README.md", within_ticks),
]


def main():
    with open(os.path.join(HERE, "respelled.txt"), encoding="utf-8") as f:
        names = dict(line.split() for line in f)
    for pattern, turn in KINDS:
        for path in sorted(glob.glob(pattern, recursive=True)):
            with open(path, encoding="utf-8") as f:
                old = f.read()
            new = turn(old, names)
            if new != old:
                with open(path, "w", encoding="utf-8") as f:
                    f.write(new)


if __name__ == "__main__":
    main()
