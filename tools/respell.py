#!/usr/bin/env python3
"""Spells this repository's own definitions and lemmas as the library spells its own: words in snake case, facts and types in camel case.

usage: python3 tools/respell.py [FOLDER]     once, in the top of the repository (or of FOLDER)

The rows of respell.tsv beside this file are 'old, a tab, new'. A name turns where it stands as a whole word: in the code of .antt files, in what is
neither comment nor string of .rt files (only clauses and ghost items have such names there), and in the code spans of README.md and docs/, but for
docs/PORT.md, which quotes older names.
A second run changes nothing.
"""

import os
import re
import sys

HERE = os.path.dirname(os.path.abspath(__file__))
WORD = re.compile(r'[^\s(){}.;,@"«»]+')
QUIET = {
    ".antt": re.compile(r'"(?:[^"\\\n]|\\.)*"|(?<![^\s(){}.;,@"«»])--[^\n]*'),
    ".rt": re.compile(r'"(?:[^"\\\n]|\\.)*"|//[^\n]*'),
}
SPAN = re.compile(r"`[^`\n]+`")


def rows():
    with open(os.path.join(HERE, "respell.tsv"), encoding="utf-8") as f:
        return dict(line.rstrip("\n").split("\t") for line in f)


def turned(text, table):
    return WORD.sub(lambda m: table.get(m[0], m[0]), text)


def outside(text, quiet, table):
    parts, at = [], 0
    for m in quiet.finditer(text):
        parts += [turned(text[at : m.start()], table), m[0]]
        at = m.end()
    return "".join(parts) + turned(text[at:], table)


def spans(text, table):
    return SPAN.sub(lambda m: "`" + turned(m[0][1:-1], table) + "`", text)


def files(top):
    for folder in ("crates", "docs"):
        for where, inner, names in os.walk(os.path.join(top, folder)):
            inner[:] = [it for it in inner if it != "out"]
            yield from (os.path.join(where, it) for it in names)
    yield os.path.join(top, "README.md")


def main(top):
    table = rows()
    for path in files(top):
        kind = os.path.splitext(path)[1]
        if kind not in (".antt", ".rt", ".md") or os.path.basename(path) == "PORT.md":
            continue
        with open(path, encoding="utf-8") as f:
            text = f.read()
        new = spans(text, table) if kind == ".md" else outside(text, QUIET[kind], table)
        if new != text:
            with open(path, "w", encoding="utf-8") as f:
                f.write(new)


main(sys.argv[1] if len(sys.argv) > 1 else ".")
